//! The studies that are timed.

use std::path::Path;

use ilstrovan::{LINE_BYTES, LONGEST_NOTE};
use second::draft::{Dice, Draft, DraftLink, Plan, Versioned, grid};
use study_tool::exact::Fraction;
use study_tool::source::Source;
use study_tool::tntp::{Options, convert};

/// A study with its name and figures.
pub struct Study {
    name: String,
    nodes: usize,
    links: usize,
    destinations: usize,
    trips: u64,
    /// Its file.
    pub file: Vec<u8>,
    /// Numbers in its table.
    pub table_length: usize,
    /// Where there are lorries, the file of version 3 with its cars alone: the
    /// same network without them.
    pub cars_alone: Option<Vec<u8>>,
}

impl Study {
    /// The first columns of its lines.
    pub fn columns(&self) -> String {
        let Study {
            name,
            nodes,
            links,
            destinations,
            trips,
            ..
        } = self;
        format!("{name} | {nodes} | {links} | {destinations} | {trips}")
    }

    /// Its name.
    pub fn name(&self) -> &str {
        &self.name
    }

    /// Room for a page.
    pub fn paper(&self) -> Vec<u8> {
        vec![0; LINE_BYTES * self.links]
    }

    /// The start's table.
    pub fn started(&self) -> Vec<u32> {
        let mut table = vec![0; self.table_length];
        assert_eq!(second::start(&self.file, &mut table), 0);
        table
    }

    /// What the first pass from the start on that adds loadings leaves, or the
    /// last of several where all of them double.
    pub fn moved(&self) -> Moved {
        let mut moved = Moved {
            table: self.started(),
            share: 1,
            note: vec![0; LONGEST_NOTE],
        };
        for _ in 0..MOST_PASSES {
            let Moved { table, share, note } = &mut moved;
            let answer = second::pass(&self.file, table, *share, note);
            assert_eq!(answer.outcome, second::MOVED);
            *share = answer.share;
            if note[0] > 0 {
                break;
            }
        }
        moved
    }

    fn of_draft(name: &str, draft: &Draft) -> Self {
        Study::of(name, &draft.clone().into())
    }

    /// The study of version 2 with zones closed.
    fn of_zones(name: &str, draft: &Draft) -> Self {
        let zones = closed_zones(draft);
        let name = format!("{name}, {} zones closed", zones.len());
        Study::of(&name, &draft.clone().closing(&zones))
    }

    /// The study of version 3 whose links have the powers 1 to 4 in turn.
    fn of_powers(name: &str, draft: &Draft) -> Self {
        let powers = [1, 2, 3, 4].into_iter().cycle();
        let powers = powers.take(draft.links.len()).collect();
        let name = format!("{name}, powers 1 to 4");
        Study::of(&name, &draft.clone().with_powers(powers))
    }

    /// The same with trips to the first eight destinations only, as many as
    /// before. Eight destinations are searched together, and those without trips
    /// only for the note of a pass that adds loadings, as its first pass does.
    fn of_eight(name: &str, draft: &Draft) -> Self {
        let mut eight = draft.clone();
        eight.trips[8..].iter_mut().for_each(|row| row.fill(0));
        top_up(&mut eight, draft.total());
        Study::of_powers(&format!("{name}, trips to 8"), &eight)
    }

    /// The study of version 4 in which a fifth of the trips are made by lorries,
    /// and links are barred to them.
    fn of_lorries(name: &str, draft: &Draft) -> Self {
        let mut cars = draft.clone();
        let mut lorries = draft.trips.clone();
        let both = cars.trips.iter_mut().zip(&mut lorries);
        for (cars, lorries) in both.flat_map(|(cars, lorries)| cars.iter_mut().zip(lorries)) {
            *lorries /= 5;
            *cars -= *lorries;
        }
        let study = cars.with_lorries(lorries);
        let barred = barred_links(&study);
        let name = format!("{name}, lorries, {} links barred", barred.len());
        Study::of(&name, &study.barring(&barred))
    }

    fn of(name: &str, study: &Versioned) -> Self {
        let draft = &study.draft;
        let cars_alone = study.lorries.as_ref().map(|_| Versioned {
            powers: Some(study.powers.clone().unwrap_or_default()),
            lorries: None,
            barred: None,
            ..study.clone()
        });
        Study {
            name: name.to_string(),
            nodes: usize::from(draft.nodes),
            links: draft.links.len(),
            destinations: draft.destinations.len(),
            trips: study.total(),
            file: study.file(),
            table_length: study.table_length(),
            cars_alone: cars_alone.map(|study| study.file()),
        }
    }
}

/// A table that a pass has moved, and its share and note.
pub struct Moved {
    pub table: Vec<u32>,
    pub share: u32,
    pub note: Vec<u16>,
}

impl Moved {
    /// What the pass did.
    pub fn words(&self) -> String {
        match self.note[0] {
            0 => "a doubling".to_string(),
            1 => "1 loading".to_string(),
            step => format!("{step} loadings"),
        }
    }
}

/// Most passes until one adds loadings.
const MOST_PASSES: usize = 8;

/// The town, Sioux Falls, and grids and random networks up to the largest study;
/// three of them once more with their zones closed, five with other powers, one
/// with trips to few of its destinations, and four with lorries.
pub fn all() -> Vec<Study> {
    let (town, sioux_falls) = (Draft::town(), sioux_falls());
    let mut studies = vec![
        Study::of_draft("town", &town),
        Study::of_powers("town", &town),
        town_with_a_lorry(),
        Study::of_draft("Sioux Falls", &sioux_falls),
        Study::of_powers("Sioux Falls", &sioux_falls),
        Study::of_lorries("Sioux Falls", &sioux_falls),
    ];
    let mut dice = Dice::new(31);
    for (wide, high) in [(4, 4), (8, 4), (8, 8), (16, 8)] {
        let nodes = wide * high;
        let mut links = grid(&mut dice, wide, high, 512, 300, 900);
        while links.len() < 4 * usize::from(nodes) {
            links.push(dice.pick(&links));
        }
        let draft = crowded(&mut dice, nodes, links);
        let name = format!("grid {wide} by {high}");
        studies.push(Study::of_draft(&name, &draft));
        if nodes >= 64 {
            studies.push(Study::of_zones(&name, &draft));
        }
        if nodes == 128 {
            studies.push(Study::of_powers(&name, &draft));
            studies.push(Study::of_eight(&name, &draft));
            studies.push(Study::of_lorries(&name, &draft));
        }
    }
    for nodes in [16, 32, 64, 128] {
        let links = (0..4 * nodes).map(|_| any_link(&mut dice, nodes)).collect();
        let draft = crowded(&mut dice, nodes, links);
        let name = format!("random {nodes}");
        studies.push(Study::of_draft(&name, &draft));
        if nodes == 128 {
            studies.push(Study::of_zones(&name, &draft));
        }
        if nodes == 16 || nodes == 128 {
            studies.push(Study::of_powers(&name, &draft));
        }
        if nodes == 128 {
            studies.push(Study::of_lorries(&name, &draft));
        }
    }
    studies
}

/// Two cars and a lorry, and road 0 barred to it.
fn town_with_a_lorry() -> Study {
    let town = Draft::town().with_lorries(vec![vec![1, 0]]);
    Study::of("town, a lorry, 1 link barred", &town.barring(&[0]))
}

/// Every tenth link that can be barred with a path left for all lorries: each in
/// turn that can with those before it.
fn barred_links(study: &Versioned) -> Vec<usize> {
    let mut barred = vec![];
    for link in (0..study.draft.links.len()).step_by(10) {
        barred.push(link);
        if second::check(&study.clone().barring(&barred).file()) != 0 {
            barred.pop();
        }
    }
    barred
}

/// Destinations that can be closed with a path left for all trips: each in turn
/// that can with those before it.
fn closed_zones(draft: &Draft) -> Vec<u16> {
    let mut closed = vec![];
    for &destination in &draft.destinations {
        closed.push(destination);
        if second::check(&draft.clone().closing(&closed).file()) != 0 {
            closed.pop();
        }
    }
    closed
}

/// The field's standard test network, ten vehicles to a trip, converted from the
/// tool's test data.
fn sioux_falls() -> Draft {
    let data = Path::new(env!("CARGO_MANIFEST_DIR")).join("../tool/tests/data");
    let open = |name| Source::open(&data.join(name)).expect("the tool's test data");
    let options = Options {
        vehicles_per_trip: Fraction::new(10, 1).expect("ten"),
        ..Options::default()
    };
    let conversion = convert(
        &open("SiouxFalls_net.tntp"),
        &open("SiouxFalls_trips.tntp"),
        &options,
    );
    let study = conversion.expect("an acceptable study").study;
    let links = study.links.iter();
    let draft = Draft {
        nodes: study.nodes,
        links: links
            .map(|link| [link.tail, link.head, link.free, link.rise, link.capacity])
            .collect(),
        destinations: study.destinations.iter().map(|to| to.node).collect(),
        trips: study
            .destinations
            .iter()
            .map(|to| to.trips.clone())
            .collect(),
    };
    assert_eq!(draft.file(), study.packed(), "a study of version 1");
    draft
}

fn any_link(dice: &mut Dice, nodes: u16) -> DraftLink {
    let tail = dice.below(u64::from(nodes)) as u16;
    let head = (tail + dice.between(1, u64::from(nodes) - 1) as u16) % nodes;
    let time = dice.between(150, 300) as u16;
    let rise = dice.between(0, 300) as u16;
    let capacity = dice.between(450, 900) as u16;
    [tail, head, time, rise, capacity]
}

/// A study on these links with a destination to four nodes, and 65,535 trips to
/// 128 nodes, at first so few from each that every destination has some.
fn crowded(dice: &mut Dice, nodes: u16, links: Vec<DraftLink>) -> Draft {
    let plan = Plan {
        nodes: (2, 2),
        links: (1, 1),
        destinations: u64::from(nodes / 4),
        time: 1,
        capacity: 1,
        trips: 30,
        tenths: 10,
    };
    let mut draft = plan.with_links(dice, nodes, links.clone());
    while draft.destinations.len() < usize::from(nodes / 4) {
        draft = plan.with_links(dice, nodes, links.clone());
    }
    top_up(&mut draft, 65_535 * u64::from(nodes) / 128);
    draft
}

/// Brings the total of trips to `total`, a trip at a time where there are some.
fn top_up(draft: &mut Draft, total: u64) {
    draft.limit_total(total);
    let mut missing = total - draft.total();
    while missing > 0 {
        for trips in draft.trips.iter_mut().flatten() {
            if missing > 0 && *trips > 0 {
                *trips += 1;
                missing -= 1;
            }
        }
    }
}
