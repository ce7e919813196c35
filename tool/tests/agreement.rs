//! The tool and `second` on many studies: the tool's explanation of a refusal
//! is there exactly when check refuses, and files and texts go round.

mod common;

use common::Dice;
use study_tool::culprit::{Obstacle, Stranded, culprit, stranded};
use study_tool::format::{Class, DEFAULT_POWER, Destination, Link, Study, Version};
use study_tool::source::Source;
use study_tool::text;

/// A small study of some version, with a fault now and then.
fn study(dice: &mut Dice) -> Study {
    let number = dice.number(*Version::NUMBERS.start(), *Version::NUMBERS.end());
    let version = Version::numbered(number).expect("a version");
    let nodes = dice.number(2, 6);
    let faults = dice.number(0, 2) == 0;
    let links: Vec<Link> = (0..dice.number(1, 12))
        .map(|_| link(dice, version, nodes, faults))
        .collect();
    let closed = marks(dice, version.has_closed(), nodes.into(), faults);
    let barred = marks(dice, version.has_lorries(), links.len(), faults);
    Study {
        version,
        nodes,
        links,
        destinations: destinations(dice, version, nodes, faults),
        closed,
        barred,
    }
}

/// A sound number, or once in a while a wrong one.
fn fault(dice: &mut Dice, faults: bool, sound: u16, wrong: u16) -> u16 {
    if faults && dice.once_in(25) {
        wrong
    } else {
        sound
    }
}

fn link(dice: &mut Dice, version: Version, nodes: u16, faults: bool) -> Link {
    let tail = dice.number(0, nodes - 1);
    let head = (tail + dice.number(1, nodes - 1)) % nodes;
    let (free, rise) = (dice.number(1, 16_383), dice.number(0, 16_383));
    let capacity = dice.number(1, u16::MAX);
    let too_large = dice.number(16_384, u16::MAX);
    let no_node = dice.number(nodes, u16::MAX);
    Link {
        tail: fault(dice, faults, tail, no_node),
        head: fault(dice, faults, head, tail),
        free: fault(dice, faults, free, 0),
        rise: fault(dice, faults, rise, too_large),
        capacity: fault(dice, faults, capacity, 0),
        power: power(dice, version, faults),
    }
}

/// Some of the nodes, with trips to them.
fn destinations(dice: &mut Dice, version: Version, nodes: u16, faults: bool) -> Vec<Destination> {
    let most = if dice.once_in(4) { 20_000 } else { 40 };
    let mut destinations = Vec::new();
    for node in 0..nodes {
        let due = node == nodes - 1 && destinations.is_empty();
        if !due && !dice.once_in(3) {
            continue;
        }
        let no_destination = dice.number(0, nodes);
        let mut trips = || -> Vec<u16> {
            let own = dice.number(1, 3);
            (0..nodes)
                .map(|from| match dice.number(0, most) {
                    _ if from == node => fault(dice, faults, 0, own),
                    _ if dice.once_in(2) => 0,
                    trips => trips,
                })
                .collect()
        };
        let cars = trips();
        let lorry_trips = match version.has_lorries() {
            true => trips(),
            false => vec![0; nodes.into()],
        };
        destinations.push(Destination {
            node: fault(dice, faults, node, no_destination),
            trips: cars,
            lorry_trips,
        });
    }
    destinations
}

/// A power that links of this version may have, or a fault.
fn power(dice: &mut Dice, version: Version, faults: bool) -> u16 {
    if !version.has_powers() {
        return DEFAULT_POWER;
    }
    match dice.number(0, 2) {
        _ if !(faults && dice.once_in(25)) => dice.number(1, 4),
        0 => 0,
        1 => 5,
        _ => dice.number(6, u16::MAX),
    }
}

/// Closed or barred bytes, if the version has them: shares from none to all,
/// with faults or without.
fn marks(dice: &mut Dice, has_them: bool, number: usize, faults: bool) -> Vec<u8> {
    if !has_them {
        return vec![0; number];
    }
    let tenths = dice.number(0, 10);
    let byte = |dice: &mut Dice| match dice.number(1, 10) {
        _ if faults && dice.once_in(25) => dice.number(2, 255) as u8,
        number => u8::from(number <= tenths),
    };
    (0..number).map(|_| byte(dice)).collect()
}

/// The questions that look into the sections, in their order.
const INNER: [u8; 8] = [6, 7, 8, 19, 23, 9, 10, 11];

/// The first of these questions that has a culprit; 0 if none has.
fn first_with_culprit(study: &Study) -> u8 {
    let has_culprit = |number: &u8| culprit(study, *number).is_some();
    INNER.into_iter().find(has_culprit).unwrap_or(0)
}

#[test]
fn refusals_are_explained() {
    let mut dice = Dice(1);
    let mut seen = [0; 24];
    // Studies whose first trips without a path have this in place of one, cars
    // and lorries.
    let mut obstacles = [[0; 4]; 2];
    // Studies whose culprit names this.
    let names = [": power ", " lorry trip", "(", " barred byte "];
    let mut named = [0; 4];
    for _ in 0..20_000 {
        let study = study(&mut dice);
        let file = study.packed();
        let answer = second::check(&file);
        seen[usize::from(answer)] += 1;

        // Questions before the one answered "no" have no culprit; after it
        // they may have.
        assert_eq!(first_with_culprit(&study), answer, "{study:?}");
        let culprit = culprit(&study, answer).unwrap_or_default();
        for (named, name) in named.iter_mut().zip(names) {
            *named += u32::from(culprit.contains(name));
        }
        if answer == 11 {
            let stranded = stranded(&study).expect("it has a culprit");
            let obstacle = obstacle(&study, stranded);
            assert_eq!(stranded.obstacle, obstacle, "{study:?}");
            obstacles[stranded.class as usize][obstacle as usize] += 1;
        }

        assert_eq!(Study::read(&file).as_ref(), Ok(&study));
        if answer == 0 {
            let mut packed = vec![0; file.len()];
            assert_eq!(second::pack(&file, &mut packed), 0);
            assert_eq!(packed, file);
        }

        let source = Source::new("text", text::write(&study, answer));
        let reading = text::read(&source).expect("what was written is read");
        assert_eq!(reading.study, study);
        assert_eq!(reading.stale(answer), []);
    }
    for number in [0, 6, 7, 8, 9, 10, 11, 19, 23] {
        assert!(seen[number] > 10, "{number} is rare: {seen:?}");
    }
    let [cars, lorries] = obstacles;
    assert!(cars[..2].iter().all(|&seen| seen > 100), "{cars:?}");
    assert_eq!(cars[2..], [0, 0], "cars may use barred links");
    assert!(lorries.iter().all(|&seen| seen > 20), "{lorries:?}");
    assert!(named.iter().all(|&named| named > 20), "{named:?}");
}

/// What there is in place of a path for these trips, by what check answers to
/// the study without closed nodes, without barred links and without either.
fn obstacle(study: &Study, stranded: Stranded) -> Obstacle {
    let mut alone = study.clone();
    for destination in &mut alone.destinations {
        let to = destination.node == stranded.to;
        let tables = [&mut destination.trips, &mut destination.lorry_trips];
        for (class, table) in Class::ALL.into_iter().zip(tables) {
            for (from, trips) in (0..).zip(table) {
                *trips *= u16::from((class, from, to) == (stranded.class, stranded.from, true));
            }
        }
    }
    let accepted = |open: bool, lifted: bool| {
        let mut study = alone.clone();
        study
            .closed
            .iter_mut()
            .for_each(|byte| *byte *= u8::from(!open));
        study
            .barred
            .iter_mut()
            .for_each(|byte| *byte *= u8::from(!lifted));
        second::check(&study.packed()) == 0
    };
    assert!(!accepted(false, false), "{study:?}");
    match (accepted(true, false), accepted(false, true)) {
        (true, false) => Obstacle::ClosedNodes,
        (false, true) => Obstacle::BarredLinks,
        (false, false) if !accepted(true, true) => Obstacle::NoLinks,
        _ => Obstacle::ClosedOrBarred,
    }
}

/// Files of all versions, damaged in the header or, once in three times,
/// anywhere.
#[test]
fn damaged_files_are_judged_alike() {
    let mut dice = Dice(2);
    // By version before the damage.
    let mut seen = [[0; 24]; 4];
    for _ in 0..40_000 {
        let study = study(&mut dice);
        let mut file = study.packed();
        let header = if study.version.has_lorries() { 56 } else { 40 };
        let end = if dice.once_in(3) { file.len() } else { header };
        for _ in 0..dice.number(0, 2) {
            let place = dice.below(end as u64) as usize;
            file[place] = match dice.number(0, 2) {
                0 => file[place].wrapping_add(1),
                1 => file[place].wrapping_sub(1),
                _ => dice.number(0, 255) as u8,
            };
        }
        let length = match dice.number(0, 5) {
            0 => file.len() - usize::from(dice.number(0, 3)),
            1 => file.len() + usize::from(dice.number(0, 200)),
            2 if dice.once_in(4) => usize::from(dice.number(0, 56)),
            3 if dice.once_in(400) => 65_536 + usize::from(dice.number(0, 1)),
            _ => file.len(),
        };
        file.resize(length, 0);

        let answer = second::check(&file);
        let version = usize::from(study.packed()[0]);
        seen[version - 1][usize::from(answer)] += 1;
        match Study::read(&file) {
            Ok(study) => {
                assert!(!(1..=5).contains(&answer), "{answer}");
                assert_eq!(first_with_culprit(&study), answer, "{study:?}");
                // Gaps make no difference to the answer.
                assert_eq!(second::check(&study.packed()), answer);
            }
            Err(refusal) => {
                assert_eq!(refusal.number, answer);
                assert!(!refusal.found.is_empty());
            }
        }
    }
    for (version, seen) in (1..).zip(seen) {
        for (number, seen) in seen.iter().enumerate().take(6) {
            assert!(*seen > 20, "{number} is rare in version {version}: {seen}");
        }
    }
}

/// The largest studies, in every version.
#[test]
fn largest_studies() {
    let mut dice = Dice(3);
    for (number, bytes) in Version::NUMBERS.zip([13_408, 13_544, 14_568, 23_288]) {
        let version = Version::numbered(number).expect("a version");
        let study = largest(&mut dice, version);
        let file = study.packed();
        assert_eq!(file.len(), bytes);
        assert_eq!(second::check(&file), 0);
        assert_eq!(Study::read(&file).as_ref(), Ok(&study));
        let source = Source::new("text", text::write(&study, 0));
        let reading = text::read(&source).expect("what was written is read");
        assert_eq!(reading.study, study);

        // As long as a file may be, with the gap at its end.
        let mut long = file.clone();
        long.resize(65_536, 7);
        assert_eq!(second::check(&long), 0);
        assert_eq!(Study::read(&long), Ok(study));
        long.push(7);
        assert_eq!(Study::read(&long).map_err(|refusal| refusal.number), Err(1));
    }
}

/// A ring of 128 nodes, four links from each to the next, the last of which is
/// barred if links can be; trips from every node to 32 of them.
fn largest(dice: &mut Dice, version: Version) -> Study {
    let link = |number: u16, dice: &mut Dice| Link {
        tail: number % 128,
        head: (number + 1) % 128,
        free: dice.number(1, 16_383),
        rise: dice.number(0, 16_383),
        capacity: dice.number(1, u16::MAX),
        power: power(dice, version, false),
    };
    let lorries = u16::from(version.has_lorries());
    Study {
        version,
        nodes: 128,
        links: (0..512).map(|number| link(number, dice)).collect(),
        destinations: (96..128)
            .map(|node| Destination {
                node,
                trips: (0..128).map(|from| u16::from(from != node)).collect(),
                lorry_trips: (0..128)
                    .map(|from| lorries * u16::from(from != node))
                    .collect(),
            })
            .collect(),
        closed: vec![0; 128],
        barred: (0..512)
            .map(|link| lorries as u8 * u8::from(link >= 384))
            .collect(),
    }
}
