//! Files of a study, whole or damaged, and lengths of its table.

use second::draft::{Dice, Versioned};
use second::format::{LORRY_VERSION, Layout};

/// The study's file, half of them as they are, else with gaps or damage.
pub fn file_of(dice: &mut Dice, study: &Versioned) -> Vec<u8> {
    let mut file = study.file();
    let layout = layout(study);
    match dice.below(10) {
        0 => {
            let gap: Vec<u8> = (0..50).map(|_| dice.roll() as u8).collect();
            let gaps = (0..=layout.sections).map(|_| &gap[..dice.index(50)]);
            file = study.file_with_gaps(&gaps.collect::<Vec<_>>());
        }
        1 => damage_header(dice, study, &mut file),
        2 => {
            for _ in 0..dice.between(1, 3) {
                let place = dice.index(file.len());
                file[place] = dice.roll() as u8;
            }
        }
        3 => match dice.below(4) {
            0 => file.truncate(dice.index(file.len())),
            // About as long as a header.
            1 => file.truncate(32 + dice.index(layout.header - 30)),
            2 => file.resize(65_536 + dice.index(2), 0x5A),
            _ => file.push(dice.roll() as u8),
        },
        4 if dice.once_in(2) => {
            let place = place_of_a_mark(dice, study, file.len());
            file[place] = dice.pick(&[0, 1, 2, 3, 128, 255]);
        }
        _ => {}
    }
    file
}

fn layout(study: &Versioned) -> &'static Layout {
    Layout::of(study.version()).expect("a version there is")
}

/// Where a closed or barred byte stands in the study's file, which has this
/// length; in version 1 one of the last bytes.
fn place_of_a_mark(dice: &mut Dice, study: &Versioned, length: usize) -> usize {
    let draft = &study.draft;
    let (nodes, links) = (usize::from(draft.nodes), draft.links.len());
    let lorries = 2 * draft.destinations.len() * nodes;
    let after = match study.version() {
        LORRY_VERSION if dice.once_in(2) => dice.index(links),
        LORRY_VERSION => links + lorries + dice.index(nodes),
        _ => dice.index(nodes),
    };
    length - 1 - after
}

/// One of the header's numbers is off.
fn damage_header(dice: &mut Dice, study: &Versioned, file: &mut [u8]) {
    let place = match dice.below(6) {
        0 => 0,
        _ => dice.index(layout(study).header),
    };
    let here = file[place];
    let near = [here.wrapping_add(1), here.wrapping_sub(1)];
    file[place] = dice.pick(&[0, 1, 2, 32, 40, 128, 255, near[0], near[1]]);
}

/// How many numbers are lent: one time in eight too few.
pub fn table_length(dice: &mut Dice, study: &Versioned) -> usize {
    let length = study.table_length();
    match dice.below(16) {
        // None, or in version 4 as many as cars need.
        0 => length - study.draft.table_length(),
        1 => length - 1,
        2 | 3 => length + dice.index(9),
        _ => length,
    }
}
