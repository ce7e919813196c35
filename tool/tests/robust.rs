//! Whatever the inputs hold, the answer is a study or a problem, never a panic.

mod common;

use common::{Dice, LORRIES, POWERS, TOWN, ZONE};
use study_tool::exact::Fraction;
use study_tool::format::Study;
use study_tool::source::Source;
use study_tool::tntp::{Lorries, Options};
use study_tool::{text, tntp};

const NET: &str = "\
<FIRST THRU NODE> 2
<NUMBER OF ZONES> 3
<NUMBER OF NODES> 3
<NUMBER OF LINKS> 2
<END OF METADATA>
1 2 120 6 6 0.15 4 0 0 1 ;
2 3 80.5 4 4 0.25 4 0 0 1 ;
";

const TRIPS: &str = "\
<TOTAL OD FLOW> 30.0
<END OF METADATA>
Origin 1
1 : 0.0; 2 : 10.0; 3 : 20.0;
";

/// Pieces that mean something in one text or another.
const PIECES: [&str; 39] = [
    "",
    " ",
    "\n",
    ";",
    ":",
    "<",
    ">",
    "~",
    "#",
    "-",
    "+",
    ".",
    "e",
    "E-9",
    "0",
    "1",
    "9",
    "65535",
    "65536",
    "1e37",
    "1e-37",
    "Origin",
    "link",
    "from",
    "destination",
    "links 1",
    "study 3",
    "4.0",
    "closed",
    "closed 0 1",
    "barred",
    "barred 0 1",
    "lorries from 1: 1",
    "study 4",
    ":2",
    "×",
    "\u{feff}",
    "\r",
    "340282366920938463463374607431768211455",
];

/// A text with a few places overwritten.
fn spoilt(text: &str, dice: &mut Dice) -> String {
    let mut letters: Vec<String> = text.chars().map(String::from).collect();
    for _ in 0..dice.number(1, 3) {
        let place = dice.below(letters.len() as u64) as usize;
        let piece = PIECES[dice.below(PIECES.len() as u64) as usize];
        match dice.number(0, 2) {
            0 => letters[place] = piece.to_owned(),
            1 => letters[place].push_str(piece),
            _ => letters.truncate(place + 1),
        }
    }
    letters.concat()
}

#[test]
fn texts() {
    let mut dice = Dice(3);
    for town in [TOWN, ZONE, POWERS, LORRIES] {
        let (mut read, mut refused) = (0, 0);
        for _ in 0..4_000 {
            let source = Source::new("town.txt", spoilt(town, &mut dice));
            match text::read(&source) {
                Ok(reading) => {
                    read += 1;
                    let answer = second::check(&reading.study.packed());
                    assert!(!(1..=5).contains(&answer), "{answer}");
                    reading.stale(answer);
                }
                Err(problem) => {
                    refused += 1;
                    assert!(problem.to_string().starts_with("town.txt: line "));
                }
            }
        }
        assert!(read > 400 && refused > 400, "{read} {refused}");
    }
}

#[test]
fn tntp_files() {
    let mut dice = Dice(4);
    let (mut made, mut refused) = (0, 0);
    let with_powers = NET.replace(" 0.15 4 ", " 0.15 2.0 ");
    for turn in 0..6_000 {
        let net = if turn % 3 == 0 { &with_powers } else { NET };
        let (mut net, mut trips) = (net.to_owned(), TRIPS.to_owned());
        if turn % 2 == 0 {
            net = spoilt(&net, &mut dice);
        } else {
            trips = spoilt(&trips, &mut dice);
        }
        let (net, trips) = (Source::new("net", net), Source::new("trips", trips));
        match tntp::convert(&net, &trips, &Options::default()) {
            Ok(conversion) => {
                made += 1;
                let file = conversion.study.packed();
                assert_eq!(second::check(&file), 0);
                assert_eq!(Study::read(&file), Ok(conversion.study));
                assert!(!conversion.report.is_empty());
            }
            Err(problem) => {
                refused += 1;
                let problem = problem.to_string();
                assert!(
                    problem.starts_with("net: line ") || problem.starts_with("trips: line "),
                    "{problem}"
                );
            }
        }
    }
    assert!(made > 200 && refused > 400, "{made} {refused}");
}

const LORRY_TRIPS: &str = "\
<NUMBER OF ZONES> 3
<TOTAL OD FLOW> 7.5
<END OF METADATA>
Origin 1
2 : 2.5; 3 : 4.0;
Origin 2
3 : 1.0;
";

/// Two of three links that lead from 1 to 2 are barred.
const BARRED: &str = "\
~ init term
1 2 1 ;
1 2 2
";

#[test]
fn lorry_files() {
    let mut dice = Dice(5);
    let (mut made, mut refused) = ([0; 2], [0; 2]);
    let net = NET.replace("LINKS> 2", "LINKS> 4")
        + "1 2 120 6 7 0.15 4 0 0 1 ;\n1 2 120 6 8 0.15 4 0 0 1 ;\n";
    for turn in 0..6_000 {
        let mut texts = [LORRY_TRIPS, BARRED].map(str::to_owned);
        let place = turn % 2; // of the text that is spoilt
        texts[place] = spoilt(&texts[place], &mut dice);
        let [lorries, barred] = texts;
        let options = Options {
            lorries: Some(Lorries {
                trips: Source::new("lorries", lorries),
                car_units: Fraction::whole(2),
                barred: Some(Source::new("barred", barred)),
            }),
            ..Options::default()
        };
        let (net, trips) = (
            Source::new("net", net.as_str()),
            Source::new("trips", TRIPS),
        );
        match tntp::convert(&net, &trips, &options) {
            Ok(conversion) => {
                made[place] += 1;
                let file = conversion.study.packed();
                assert_eq!(second::check(&file), 0);
                assert_eq!(Study::read(&file), Ok(conversion.study));
            }
            Err(problem) => {
                refused[place] += 1;
                let problem = problem.to_string();
                let files = ["lorries: line ", "barred: line "];
                assert!(
                    files.iter().any(|file| problem.starts_with(file)),
                    "{problem}"
                );
            }
        }
    }
    for (made, refused) in made.into_iter().zip(refused) {
        assert!(made > 200 && refused > 400, "{made} {refused}");
    }
}
