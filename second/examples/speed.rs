//! Times of the calls on a few studies: `cargo run --release --example speed`.
//!
//! Each time is the shortest of many tries, in microseconds. Passes, audits
//! and pages are of the table a run ends with. What is taken back is the first
//! move by loadings after a start, and `move` is the pass that makes it. First
//! come studies of version 1, then pairs of a study with closed nodes and the
//! same one with all nodes open, then studies with powers of several kinds and
//! the same ones with power 4 on all links, then studies in which nobody goes to
//! most destinations, then studies with lorries and the same ones with cars
//! alone. Last come desks, each line with the time of all their runs by
//! themselves and that of the call for desks.

use std::hint::black_box;
use std::time::{Duration, Instant};

use second::draft::{Dice, Draft, DraftLink, Plan, Versioned, grid};
use second::{Desk, SEATS, audit, check, desks, page, pass, run, start, take_back};

/// Shortest time of a call over half a second of tries, in microseconds.
fn shortest<T>(mut call: impl FnMut() -> T) -> f64 {
    let mut best = Duration::MAX;
    let begin = Instant::now();
    while begin.elapsed() < Duration::from_millis(500) {
        let now = Instant::now();
        black_box(call());
        best = best.min(now.elapsed());
    }
    best.as_secs_f64() * 1e6
}

/// The tables before and after the first move by loadings from a start, with
/// their shares and the note.
fn first_move(file: &[u8], length: usize, note: &mut [u16]) -> [(Vec<u32>, u32); 2] {
    let mut table = vec![0; length];
    assert_eq!(start(file, &mut table), 0);
    let mut share = 1;
    loop {
        let before = (table.clone(), share);
        share = pass(file, &mut table, share, note).share;
        if note[0] > 0 {
            return [before, (table, share)];
        }
    }
}

/// One line of times for one study.
fn show(name: &str, study: impl Into<Versioned>) {
    let study = study.into();
    let (draft, file) = (&study.draft, study.file());
    let mut table = vec![0; study.table_length()];
    let answer = run(&file, &mut table, 1_024, 0);
    assert_eq!(answer.refusal, 0);

    let mut other = table.clone();
    let copying = shortest(|| other.copy_from_slice(black_box(&table)));
    let checking = shortest(|| check(black_box(&file)));
    let starting = shortest(|| start(&file, &mut other));
    let mut note = vec![0; study.note_length()];
    let passing = shortest(|| {
        other.copy_from_slice(&table);
        pass(&file, &mut other, answer.share, &mut note)
    });
    let [before, after] = first_move(&file, table.len(), &mut note);
    let moving = shortest(|| {
        other.copy_from_slice(&before.0);
        pass(&file, &mut other, before.1, &mut note)
    });
    let taking_back = shortest(|| {
        other.copy_from_slice(&after.0);
        take_back(&file, &mut other, after.1, &note)
    });
    assert_eq!(other, before.0);
    let auditing = shortest(|| audit(&file, &table, answer.share));
    let mut bytes = vec![0; 30 * draft.links.len()];
    let paging = shortest(|| page(&file, &table, answer.share, &mut bytes));
    let running = shortest(|| run(&file, &mut other, 1_024, 0));
    println!(
        "{name:20} {:3} {:3} {:2} {:5} {checking:8.2} {starting:8.2} {:8.2} {:8.2} {:8.2} {auditing:8.2} {paging:8.2} {running:10.1} {:5} {:8.2}",
        draft.nodes,
        draft.links.len(),
        draft.destinations.len(),
        study.total(),
        passing - copying,
        moving - copying,
        taking_back - copying,
        answer.judged,
        running / f64::from(answer.judged),
    );
}

/// A study on links given, with trips from everywhere to `destinations` nodes.
fn study(dice: &mut Dice, nodes: u16, links: &[DraftLink], destinations: u64, trips: u64) -> Draft {
    let plan = Plan {
        nodes: (2, 2),
        links: (1, 1),
        destinations,
        time: 1,
        capacity: 1,
        trips,
        tenths: 10,
    };
    loop {
        let draft = plan.with_links(dice, nodes, links.to_vec());
        if draft.destinations.len() as u64 == destinations {
            return draft;
        }
    }
}

fn main() {
    println!(
        "{:20} {:>3} {:>3} {:>2} {:>5} {:>8} {:>8} {:>8} {:>8} {:>8} {:>8} {:>8} {:>10} {:>5} {:>8}",
        "study",
        "n",
        "m",
        "p",
        "T",
        "check",
        "start",
        "pass",
        "move",
        "back",
        "audit",
        "page",
        "run",
        "judged",
        "a table"
    );
    let mut dice = Dice::new(7);
    show("town", Draft::town());
    let links = grid(&mut dice, 6, 4, 76, 60, 900);
    show("grid 6 by 4", study(&mut dice, 24, &links, 24, 60));
    for destinations in [1, 8, 32] {
        let trips = (480 / destinations).min(90);
        for capacity in [300, 800, 3_000] {
            let mut links = grid(&mut dice, 16, 8, 512, 300, capacity);
            while links.len() < 512 {
                links.push(dice.pick(&links));
            }
            let draft = study(&mut dice, 128, &links, destinations, trips);
            show(&format!("grid 16 by 8, {capacity}"), draft);
        }
        let links = Plan {
            nodes: (128, 128),
            links: (512, 512),
            destinations: 1,
            time: 300,
            capacity: 400,
            trips: 1,
            tenths: 1,
        }
        .draft(&mut dice)
        .links;
        let draft = study(&mut dice, 128, &links, destinations, trips);
        show("random", draft);
    }
    for destinations in [1, 8, 32] {
        closed_nodes(&mut dice, destinations);
    }
    for destinations in [1, 8, 32] {
        powers(&mut dice, destinations);
    }
    for idle in [0, 8, 24, 31] {
        idle_destinations(&mut dice, idle);
    }
    for destinations in [1, 8, 32] {
        lorries(&mut dice, destinations);
    }
    println!(
        "{:20} {:>5} {:>5} {:>10} {:>10}",
        "desks", "desks", "turns", "runs", "desks"
    );
    for count in [1, 2, 8] {
        show_desks("town", &vec![Draft::town().into(); count]);
    }
    for destinations in [1, 8, 32] {
        desks_of_grids(&mut dice, destinations);
    }
}

/// One line of times for desks with these studies.
fn show_desks(name: &str, studies: &[Versioned]) {
    let files: Vec<Vec<u8>> = studies.iter().map(Versioned::file).collect();
    let mut tables = [const { Vec::new() }; SEATS];
    for (table, study) in tables.iter_mut().zip(studies) {
        table.resize(study.table_length(), 0);
    }
    let running = shortest(|| {
        for (file, table) in files.iter().zip(&mut tables) {
            black_box(run(file, table, 1_024, 0));
        }
    });
    let mut files = files.iter();
    let mut seats = tables.each_mut().map(|table| Desk {
        file: files.next().map_or(&[], Vec::as_slice),
        table,
        budget: 1_024,
        excess: 0,
    });
    let count = studies.len() as u32;
    let turns = desks(&mut seats, count, 8_192).turns;
    let going_round = shortest(|| desks(&mut seats, count, 8_192));
    println!("{name:20} {count:5} {turns:5} {running:10.1} {going_round:10.1}");
}

/// Desks with street grids 16 by 8: one, and eight, every second of which has
/// lorries and powers.
fn desks_of_grids(dice: &mut Dice, destinations: u64) {
    let trips = (480 / destinations).min(90);
    let studies = [(); SEATS].map(|()| {
        let mut links = grid(dice, 16, 8, 512, 300, 800);
        while links.len() < 512 {
            links.push(dice.pick(&links));
        }
        study(dice, 128, &links, destinations, trips)
    });
    let mut seat = 0;
    let studies = studies.map(|draft| {
        seat += 1;
        if seat % 2 == 1 {
            return draft.into();
        }
        let study = draft.with_some_powers(dice).with_some_lorries(dice, 5);
        study.barring_some(dice, 1)
    });
    let name = format!("grid 16 by 8, {destinations}");
    show_desks(&name, &studies[..1]);
    show_desks(&name, &studies);
}

/// A street grid 16 by 8 with as many lorries as cars: with one link in ten
/// barred to lorries, with none barred, with cars alone, and with all trips made
/// by cars.
fn lorries(dice: &mut Dice, destinations: u64) {
    let mut links = grid(dice, 16, 8, 512, 300, 800);
    while links.len() < 512 {
        links.push(dice.pick(&links));
    }
    let trips = (480 / destinations).min(90);
    let draft = study(dice, 128, &links, destinations, trips);
    let trips = draft.trips.clone();
    let both = draft.clone().with_lorries(trips);
    let mut together = draft.clone();
    for count in together.trips.iter_mut().flatten() {
        *count *= 2;
    }
    show("lorries, some barred", both.clone().barring_some(dice, 1));
    show("  none barred", both);
    show("  cars alone", draft.with_powers(vec![4; 512]));
    show("  all by car", together.with_powers(vec![4; 512]));
}

/// A street grid 16 by 8 with 32 destinations, to so many of which nobody goes.
fn idle_destinations(dice: &mut Dice, idle: usize) {
    let links = grid(dice, 16, 8, 512, 300, 800);
    let mut draft = study(dice, 128, &links, 32, 15);
    for trips in draft.trips.iter_mut().take(idle) {
        trips.fill(0);
    }
    show(&format!("{idle} idle"), draft);
}

/// A street grid 16 by 8 with mixed powers, with power 1 on all links and with
/// power 4 on all links, that one in version 3 and in version 1.
fn powers(dice: &mut Dice, destinations: u64) {
    let mut links = grid(dice, 16, 8, 512, 300, 300);
    while links.len() < 512 {
        links.push(dice.pick(&links));
    }
    let trips = (480 / destinations).min(90);
    let draft = study(dice, 128, &links, destinations, trips);
    let mixed = (0..512).map(|_| dice.between(1, 4) as u16).collect();
    show("mixed powers", draft.clone().with_powers(mixed));
    show("  power 1", draft.clone().with_powers(vec![1; 512]));
    show("  power 4", draft.clone().with_powers(vec![4; 512]));
    show("  version 1", draft);
}

/// Studies with closed nodes, each followed by its twin without them: streets
/// 12 by 8 with 32 zones beside them, and streets 16 by 8 with one node in ten
/// closed.
fn closed_nodes(dice: &mut Dice, destinations: u64) {
    let plan = Plan {
        nodes: (2, 2),
        links: (1, 1),
        destinations,
        time: 300,
        capacity: 800,
        trips: (900 / destinations).min(90),
        tenths: 10,
    };
    let links = grid(dice, 12, 8, 512, 300, 800);
    let zones = plan.with_zones(dice, 96, 32, links);
    let mut links = grid(dice, 16, 8, 512, 300, 800);
    while links.len() < 512 {
        links.push(dice.pick(&links));
    }
    let some = study(
        dice,
        128,
        &links,
        destinations,
        (480 / destinations).min(90),
    );
    let some = some.closing_some(dice, 1);
    for (name, study) in [("zones", zones), ("some closed", some)] {
        let open = study.draft.clone().closing(&[]);
        show(name, study);
        show("  all open", open);
    }
}
