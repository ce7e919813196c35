//! A varied list of calls, the same at every making.
//!
//! The list covers the town of two roads, every question's boundary by every
//! call that puts it, small studies of all kinds with tables of all kinds
//! (made by passes, wandering, with cycles, damaged), and studies at every
//! limit; after all these, pages of the same kinds of tables; after these,
//! studies of version 2 with closed nodes; after these, links past the curve;
//! after these, studies of version 3 with powers; after these, notes and taking
//! back; after these, studies of version 4 with lorries; and after these, desks.
//!
//! New calls go to the end of the list, so that a recording made before is the
//! beginning of the next one.

use crate::calls::start;
use crate::draft::{Dice, Draft, DraftLink, Plan, grid};
use crate::stream::{Call, Kind, Lent, Player, Reply, Second};

mod desks;
mod desks_networks;
mod headers;
mod lorries;
mod lorry_files;
mod lorry_networks;
mod past_the_curve;
mod power_files;
mod power_networks;
mod powers;
mod taking_back;
mod taking_back_networks;
mod zoned_networks;
mod zones;

/// All calls.
pub fn all() -> Vec<Call> {
    let mut list = List::default();
    town(&mut list);
    town_of_other_files(&mut list);
    damaged_files(&mut list);
    order_of_questions(&mut list);
    tables_and_numbers(&mut list);
    no_trips(&mut list);
    oddities(&mut list);
    small_studies(&mut list);
    long_runs(&mut list);
    crowded_links(&mut list);
    long_line(&mut list);
    single_limits(&mut list);
    full_limits(&mut list);
    pages_of_full_limits(&mut list);
    pages_of_the_town(&mut list);
    pages_and_questions(&mut list);
    volumes_on_a_page(&mut list);
    times_on_a_page(&mut list);
    numbers_on_a_page(&mut list);
    pages_of_small_studies(&mut list);

    headers::short_files(&mut list);
    headers::versions(&mut list);
    headers::offsets_and_lengths(&mut list);
    headers::orders_of_sections(&mut list);
    headers::gaps(&mut list);
    headers::closed_bytes(&mut list);
    headers::order_of_questions(&mut list);
    headers::packing(&mut list);
    zones::zone_in_the_middle(&mut list);
    zones::flow_into_a_zone(&mut list);
    zones::order_of_table_questions(&mut list);
    zones::idle_destinations(&mut list);
    zones::next_links(&mut list);
    zones::ties_at_a_closed_destination(&mut list);
    zones::paths(&mut list);
    zones::paths_by_a_destination(&mut list);
    zones::paths_to_many(&mut list);
    zones::all_closed(&mut list);
    zoned_networks::twins(&mut list);
    zoned_networks::random_studies(&mut list);
    zoned_networks::sums_beyond_32_bits(&mut list);
    zoned_networks::full_limits(&mut list);

    past_the_curve::town(&mut list);
    past_the_curve::edges(&mut list);
    past_the_curve::no_rise(&mut list);
    past_the_curve::destinations(&mut list);
    past_the_curve::versions(&mut list);
    past_the_curve::moves(&mut list);
    past_the_curve::runs(&mut list);
    past_the_curve::all_links(&mut list);
    past_the_curve::refusals(&mut list);
    past_the_curve::networks(&mut list);

    powers::town(&mut list);
    powers::steps(&mut list);
    powers::extremes(&mut list);
    powers::choices(&mut list);
    powers::past_the_curve(&mut list);
    powers::closed_nodes(&mut list);
    powers::twins(&mut list);
    power_files::powers_at_boundaries(&mut list);
    power_files::versions(&mut list);
    power_files::short_files(&mut list);
    power_files::offsets_and_lengths(&mut list);
    power_files::gaps(&mut list);
    power_files::order_of_questions(&mut list);
    power_files::packing(&mut list);
    power_networks::random_studies(&mut list);
    power_networks::long_runs(&mut list);
    power_networks::full_limits(&mut list);

    taking_back::town(&mut list);
    taking_back::all_moves_of_the_town(&mut list);
    taking_back::notes_of_the_town(&mut list);
    taking_back::halves(&mut list);
    taking_back::files(&mut list);
    taking_back::numbers_of_a_note(&mut list);
    taking_back::walks(&mut list);
    taking_back::forbidden_links(&mut list);
    taking_back::order_of_questions(&mut list);
    taking_back::sequences(&mut list);
    taking_back_networks::destinations_without_trips(&mut list);
    taking_back_networks::nodes_without_a_path(&mut list);
    taking_back_networks::random_studies(&mut list);
    taking_back_networks::made_notes(&mut list);
    taking_back_networks::long_line(&mut list);
    taking_back_networks::single_limits(&mut list);
    taking_back_networks::most_links(&mut list);
    taking_back_networks::full_limits(&mut list);

    lorries::town(&mut list);
    lorries::tables_of_the_town(&mut list);
    lorries::equal_totals(&mut list);
    lorries::next_links(&mut list);
    lorries::paths(&mut list);
    lorries::trips(&mut list);
    lorries::numbers_of_a_note(&mut list);
    lorries::halves(&mut list);
    lorries::forbidden_flow(&mut list);
    lorries::order_of_table_questions(&mut list);
    lorries::runs(&mut list);
    lorry_files::short_files(&mut list);
    lorry_files::versions(&mut list);
    lorry_files::offsets_and_lengths(&mut list);
    lorry_files::orders_of_sections(&mut list);
    lorry_files::gaps(&mut list);
    lorry_files::barred_bytes(&mut list);
    lorry_files::order_of_questions(&mut list);
    lorry_files::packing(&mut list);
    lorry_networks::random_studies(&mut list);
    lorry_networks::notes(&mut list);
    lorry_networks::long_runs(&mut list);
    lorry_networks::idle_destinations(&mut list);
    lorry_networks::single_limits(&mut list);
    lorry_networks::full_limits(&mut list);

    desks::one_to_eight(&mut list);
    desks::one_desk(&mut list);
    desks::allowances(&mut list);
    desks::versions(&mut list);
    desks::same_study(&mut list);
    desks::no_trips(&mut list);
    desks::refused_files_among_others(&mut list);
    desks::refused_tables_and_budgets(&mut list);
    desks::refused_desks_only(&mut list);
    desks::seats_without_a_desk(&mut list);
    desks::whole_calls(&mut list);
    desks::among_other_calls(&mut list);
    desks_networks::finest(&mut list);
    desks_networks::random_studies(&mut list);
    desks_networks::full_limits(&mut list);
    list.calls
}

/// The list in the making; every call is made as soon as it is written down,
/// so that later calls can build on its answer.
#[derive(Default)]
struct List {
    calls: Vec<Call>,
    player: Player,
}

impl List {
    fn call(
        &mut self,
        kind: Kind,
        file: &[u8],
        lent: Lent,
        share: u32,
        budget: u32,
        excess: u16,
    ) -> Reply {
        let same = !self.calls.is_empty() && self.player.file == file;
        let call = Call {
            kind,
            file: (!same).then(|| file.to_vec()),
            lent,
            share,
            budget,
            excess,
        };
        let reply = self.player.play(&Second, &call);
        self.calls.push(call);
        reply
    }

    fn check(&mut self, file: &[u8]) {
        self.call(Kind::Check, file, Lent::Nothing, 0, 0, 0);
    }

    fn pack(&mut self, file: &[u8], output: Vec<u8>) {
        self.call(Kind::Pack, file, Lent::Output(output), 0, 0, 0);
    }

    fn start(&mut self, file: &[u8], table: Vec<u32>) {
        self.call(Kind::Start, file, Lent::Table(table), 0, 0, 0);
    }

    fn run(&mut self, file: &[u8], table: Vec<u32>, budget: u32, excess: u16) {
        self.call(Kind::Run, file, Lent::Table(table), 0, budget, excess);
    }

    /// A pass with the note that was left last; the first pass of all is lent
    /// one that is long enough for every study without lorries.
    fn pass(&mut self, file: &[u8], table: Vec<u32>, share: u32) -> Reply {
        self.call(Kind::Pass, file, self.noted(Some(table)), share, 0, 0)
    }

    /// What that pass is lent.
    fn noted(&self, table: Option<Vec<u32>>) -> Lent {
        let first = self.player.note.is_empty();
        Lent::Noted(table, first.then(|| patterned_note(LONG_NOTE)))
    }

    fn audit(&mut self, file: &[u8], table: Vec<u32>, share: u32) {
        self.call(Kind::Audit, file, Lent::Table(table), share, 0, 0);
    }

    /// A start over the table as the call before left it.
    fn start_on(&mut self, file: &[u8]) {
        self.call(Kind::Start, file, Lent::Same, 0, 0, 0);
    }

    /// A pass on the table as the call before left it. Moves `share` on to the
    /// share reached.
    fn pass_on(&mut self, file: &[u8], share: &mut u32) {
        if let Reply::Pass(answer) = self.call(Kind::Pass, file, self.noted(None), *share, 0, 0)
            && answer.refusal == 0
        {
            *share = answer.share;
        }
    }

    /// An audit of the table as the call before left it.
    fn audit_on(&mut self, file: &[u8], share: u32) {
        self.call(Kind::Audit, file, Lent::Same, share, 0, 0);
    }

    /// A run over the table as the call before left it. Hands back the share
    /// reached.
    fn run_on(&mut self, file: &[u8], budget: u32, excess: u16) -> u32 {
        match self.call(Kind::Run, file, Lent::Same, 0, budget, excess) {
            Reply::Run(answer) => answer.share,
            _ => 0,
        }
    }

    /// A page of a table.
    fn page(&mut self, file: &[u8], table: &[u32], share: u32, page: Vec<u8>) {
        let lent = Lent::Page(Some(table.to_vec()), page);
        self.call(Kind::Page, file, lent, share, 0, 0);
    }

    /// A page of the table as the call before left it.
    fn page_on(&mut self, file: &[u8], share: u32, page: Vec<u8>) {
        self.call(Kind::Page, file, Lent::Page(None, page), share, 0, 0);
    }

    /// The table that was left last goes through a start, passes, an audit, a
    /// page, a run and an audit. The share that the run answers.
    fn through_all_calls(&mut self, file: &[u8], passes: usize, budget: u32) -> u32 {
        self.start_on(file);
        let mut share = 1;
        for _ in 0..passes {
            self.pass_on(file, &mut share);
        }
        self.audit_on(file, share);
        self.page_on(file, share, paper(15_360));
        let share = self.run_on(file, budget, 0);
        self.audit_on(file, share);
        share
    }

    /// Check, pack, start, pass, run and audit with one file, the last five
    /// with what they need.
    fn each(&mut self, file: &[u8], table: &[u32], output: usize) {
        self.check(file);
        self.pack(file, vec![0xA5; output]);
        self.start(file, table.to_vec());
        self.pass(file, table.to_vec(), 1);
        self.run(file, table.to_vec(), 3, 0);
        self.audit(file, table.to_vec(), 1);
    }
}

/// The cases of the town of two roads.
fn town(list: &mut List) {
    let file = Draft::town().file();
    list.check(&file);
    for length in [0, 57, 58, 59, 90] {
        list.pack(&file, vec![0xEE; length]);
    }
    for table in [vec![0, 0], vec![7, 9], vec![u32::MAX; 5]] {
        list.start(&file, table);
    }
    // P6 to P8, and the tables of other shares.
    for (table, share) in [
        ([2, 0], 1),
        ([0, 2], 1),
        ([1, 1], 1),
        ([16, 0], 8),
        ([16, 2], 9),
        ([18, 0], 9),
        ([0, 18], 9),
        ([16, 1], 9),
        ([18, 1], 9),
        ([19, 0], 9),
        ([0, 19], 9),
        ([128, 0], 64),
        ([2_048, 0], 1_024),
        ([1_820, 228], 1_024),
        ([0, 2_048], 1_024),
        ([2_046, 0], 1_023),
        ([1_024, 0], 512),
        ([1_026, 0], 513),
        ([911, 115], 513),
        ([0, 0], 1),
        ([u32::MAX, u32::MAX], 1),
        ([u32::MAX, 3], 1_024),
    ] {
        list.audit(&file, table.to_vec(), share);
        list.pass(&file, table.to_vec(), share);
    }
    for share in [0, 1_025, 65_536, u32::MAX] {
        list.audit(&file, vec![2, 0], share);
        list.pass(&file, vec![2, 0], share);
    }
    for budget in (0..=12).chain([1_023, 1_024, 1_025, 65_537, u32::MAX]) {
        list.run(&file, vec![5, 6, 7], budget, 0);
    }
    for excess in [1, 2, 3, 4, 5, 6, 65_535] {
        list.run(&file, vec![0, 0], 10, excess);
    }
    for length in 0..2 {
        list.start(&file, vec![1; length]);
        list.run(&file, vec![1; length], 3, 0);
        list.pass(&file, vec![1; length], 1);
        list.audit(&file, vec![1; length], 1);
    }
    // From the start to where there is no move, with refusals in between.
    list.start(&file, vec![3, 4, 5]);
    let mut share = 1;
    for turn in 0..16 {
        list.pass_on(&file, &mut share);
        if turn % 3 == 0 {
            list.audit_on(&file, share);
            list.pass_on(&file, &mut (share + 1));
        }
    }
}

/// The town with other trips and other roads.
fn town_of_other_files(list: &mut List) {
    let town = Draft::town();
    let change = |list: &mut List, alter: &dyn Fn(&mut Draft)| {
        let mut draft = town.clone();
        alter(&mut draft);
        let file = draft.file();
        let table = vec![0; draft.table_length()];
        list.each(&file, &table, draft.packed_length());
        list.run(&file, table, 1_024, 0);
    };
    change(list, &|draft| draft.trips[0] = vec![0, 0]);
    change(list, &|draft| draft.trips[0] = vec![0, 1]);
    change(list, &|draft| draft.trips[0] = vec![2, 1]);
    change(list, &|draft| draft.trips[0] = vec![65_535, 0]);
    change(list, &|draft| draft.trips[0] = vec![1, 0]);
    // No link into the destination, with trips and without.
    change(list, &|draft| {
        draft.links = vec![[1, 0, 10, 10, 2], [1, 0, 15, 0, 1]];
    });
    change(list, &|draft| {
        draft.links = vec![[1, 0, 10, 10, 2], [1, 0, 15, 0, 1]];
        draft.trips[0] = vec![0, 0];
    });
    // One total at the limit and one above it, over two nodes.
    for more in [0, 1] {
        change(list, &|draft| {
            draft.nodes = 3;
            draft.links.push([2, 0, 7, 3, 900]);
            draft.trips[0] = vec![65_000 + more, 0, 535];
        });
    }
    // Over two destinations.
    for more in [0, 1] {
        change(list, &|draft| {
            draft.links.push([1, 0, 7, 3, 900]);
            draft.destinations = vec![0, 1];
            draft.trips = vec![vec![0, 32_768 + more], vec![32_767, 0]];
        });
    }
    // Equal roads: the lower number is the next link.
    change(list, &|draft| {
        draft.links = vec![[0, 1, 10, 5, 1], [0, 1, 10, 5, 1], [0, 1, 10, 0, 1]];
    });
    change(list, &|draft| draft.links[0] = [0, 1, 15, 10, 2]);
    change(list, &|draft| {
        draft.links[0] = [0, 1, 16_383, 16_383, 65_535]
    });
    change(list, &|draft| draft.links.truncate(1));
}

/// A small acceptable study with something of everything in it.
fn sample() -> Draft {
    Draft {
        nodes: 4,
        links: vec![
            [0, 1, 10, 10, 2],
            [1, 2, 5, 300, 3],
            [2, 0, 8, 0, 1],
            [0, 2, 40, 20, 5],
            [3, 0, 1, 1, 1],
        ],
        destinations: vec![1, 2],
        trips: vec![vec![3, 0, 2, 1], vec![4, 5, 0, 0]],
    }
}

/// Files with one fault, or with none but at a boundary.
fn files_at_boundaries() -> Vec<Vec<u8>> {
    let draft = sample();
    let file = draft.file();
    let set16 = |place: usize, number: u16| {
        let mut other = file.clone();
        other[place..place + 2].copy_from_slice(&number.to_le_bytes());
        other
    };
    let set32 = |place: usize, number: u32| {
        let mut other = file.clone();
        other[place..place + 4].copy_from_slice(&number.to_le_bytes());
        other
    };
    let alter = |change: &dyn Fn(&mut Draft)| {
        let mut other = draft.clone();
        change(&mut other);
        other.file()
    };
    let mut files = vec![];

    // 1 and 2
    for length in [0, 1, 31, 32, 33] {
        files.push(file[..length].to_vec());
    }
    for version in [0, 2, 256, 257, 65_535] {
        files.push(set16(0, version));
    }
    // 3: nodes, links, destinations, and more destinations than nodes
    for (place, numbers) in [
        (2, [0, 1, 129, 65_535].as_slice()),
        (4, &[0, 513, 65_535]),
        (6, &[0, 5, 33, 65_535]),
    ] {
        files.extend(numbers.iter().map(|&number| set16(place, number)));
    }
    // 4: offsets and lengths, each by one and beyond all measure
    for place in [8, 12, 16, 20, 24, 28] {
        let here = crate::format::u32_at(&file, place);
        for number in [here - 1, here + 1, 0, 0x8000_0000, u32::MAX] {
            files.push(set32(place, number));
        }
    }
    // 4 and 5: two lengths at once, and sections in another order
    let mut swapped = file.clone();
    for byte in 0..8 {
        swapped.swap(8 + byte, 16 + byte);
    }
    files.push(swapped);
    // 5: other counts than the lengths fit
    files.push(set16(2, 3));
    files.push(set16(2, 5));
    files.push(set16(4, 4));
    files.push(set16(4, 6));
    files.push(set16(6, 1));
    files.push(set16(6, 3));
    // A byte too many and a byte too few at the end
    files.push([file.as_slice(), &[9]].concat());
    files.push(file[..file.len() - 1].to_vec());
    // Gaps everywhere, and one after the other
    for gap in 0..4 {
        let mut gaps: [&[u8]; 4] = [&[]; 4];
        gaps[gap] = &[1, 2, 3, 4, 5];
        files.push(draft.file_with_gaps(gaps));
    }
    files.push(draft.file_with_gaps([&[7], &[8; 3], &[9; 300], &[10; 2]]));

    // 6 and 7, at the first, a middle and the last link
    for link in [0, 2, 4] {
        for (field, numbers) in [
            (0, [4, 65_535].as_slice()),
            (1, &[4, 128, 256, 65_535]),
            (2, &[0, 1, 16_383, 16_384, 65_535]),
            (3, &[0, 16_383, 16_384, 65_535]),
            (4, &[0, 1, 65_535]),
        ] {
            for &number in numbers {
                files.push(alter(&|draft| draft.links[link][field] = number));
            }
        }
        files.push(alter(&|draft| draft.links[link][1] = draft.links[link][0]));
    }
    // 8
    for destinations in [
        [1, 1],
        [2, 1],
        [1, 4],
        [4, 1],
        [256, 257],
        [1, 65_535],
        [0, 3],
    ] {
        files.push(alter(&|draft| draft.destinations = destinations.to_vec()));
    }
    // 9
    files.push(alter(&|draft| draft.trips[0][1] = 1));
    files.push(alter(&|draft| draft.trips[1][2] = 65_535));
    // 10
    for more in [0, 1] {
        files.push(alter(&|draft| {
            draft.trips = vec![vec![65_535 - 100, 0, 0, 0], vec![0, 99, 0, 1 + more]];
        }));
    }
    files.push(alter(&|draft| {
        draft.trips = vec![vec![65_535, 0, 65_535, 65_535]; 2]
    }));
    // 11: node 3 has no link into it, so nobody reaches it; node 1 loses its
    // only way out
    files.push(alter(&|draft| draft.destinations = vec![1, 3]));
    files.push(alter(&|draft| {
        draft.destinations = vec![1, 3];
        draft.trips[1] = vec![0; 4];
    }));
    files.push(alter(&|draft| draft.links[1] = [0, 2, 5, 300, 3]));
    files.push(alter(&|draft| {
        draft.links[1] = [0, 2, 5, 300, 3];
        draft.trips[1][1] = 0;
    }));
    files
}

/// Every file at a boundary, by every call.
fn damaged_files(list: &mut List) {
    for file in files_at_boundaries() {
        list.each(&file, &[0; 10], 106);
    }
    // The longest file, and one byte more.
    let draft = sample();
    for length in [65_536, 65_537] {
        let tail = vec![0x5A; length - draft.packed_length()];
        let file = draft.file_with_gaps([&[], &[], &[], &tail]);
        list.each(&file, &[0; 10], 106);
    }
}

/// Files and numbers with two faults: the first question wins.
fn order_of_questions(list: &mut List) {
    let mut faults: Vec<fn(&mut Draft)> = vec![
        |draft| draft.nodes = 129,                  // 3
        |draft| draft.links[4][0] = 9,              // 6
        |draft| draft.links[0][2] = 0,              // 7
        |draft| draft.destinations = vec![2, 1],    // 8
        |draft| draft.trips[0][1] = 5,              // 9
        |draft| draft.trips[0][0] = 65_535,         // 10
        |draft| draft.links[0] = [1, 0, 10, 10, 2], // 11
        |_| {},
    ];
    faults.reverse();
    for first in 0..faults.len() {
        for second in 0..first {
            let mut draft = sample();
            faults[first](&mut draft);
            faults[second](&mut draft);
            let file = draft.file();
            list.check(&file);
            // Behind them, tables too short, shares, budgets and outputs.
            list.pack(&file, vec![1; 20]);
            list.start(&file, vec![1; 9]);
            list.run(&file, vec![1; 9], 0, 1);
            list.pass(&file, vec![1; 9], 0);
            list.audit(&file, vec![1; 10], 1_025);
        }
    }
}

/// Questions 12 to 17 with the sample study.
fn tables_and_numbers(list: &mut List) {
    let draft = sample();
    let file = draft.file();
    let mut dice = Dice::new(12);
    for length in [0, 9, 10, 11, 30] {
        let table = vec![3; length];
        list.start(&file, table.clone());
        list.run(&file, table.clone(), 2, 0);
        list.pass(&file, table.clone(), 1);
        list.audit(&file, table, 1);
    }
    for length in [0, 105, 106, 107, 200] {
        list.pack(&file, (0..length).map(|byte| byte as u8).collect());
    }
    for budget in [0, 1, 2, 1_024, 1_025, 2_048, u32::MAX] {
        for excess in [0, 7, 65_535] {
            list.run(&file, vec![8; 12], budget, excess);
        }
    }
    for share in [1, 2, 3, 63, 64, 65, 512, 513, 959, 960, 961, 1_023, 1_024] {
        let table = draft.wandering_table(&mut dice, share);
        list.audit(&file, table.clone(), share);
        list.pass(&file, table.clone(), share);
        for wrong in [0, share - 1, share + 1, 2 * share, 1_025, u32::MAX] {
            list.audit(&file, table.clone(), wrong);
            list.pass(&file, table.clone(), wrong);
        }
        // One number more or less, anywhere.
        for _ in 0..3 {
            let mut other = table.clone();
            let place = dice.index(other.len());
            other[place] = match dice.below(4) {
                0 => other[place] + 1,
                1 => other[place].saturating_sub(1),
                2 => u32::MAX,
                _ => dice.any_u32(),
            };
            list.audit(&file, other.clone(), share);
            list.pass(&file, other, share);
        }
    }
}

/// Studies without trips: every table but the empty one is refused, and the
/// share runs to its end.
fn no_trips(list: &mut List) {
    let mut dice = Dice::new(13);
    for mut draft in [Draft::town(), sample()] {
        draft.trips.iter_mut().for_each(|trips| trips.fill(0));
        let file = draft.file();
        let empty = vec![0; draft.table_length()];
        for budget in [1, 2, 1_024] {
            list.run(
                &file,
                vec![9; empty.len() + 1],
                budget,
                dice.below(3) as u16,
            );
        }
        for share in [1, 2, 64, 512, 959, 960, 961, 1_000, 1_022, 1_023, 1_024] {
            list.audit(&file, empty.clone(), share);
            list.pass(&file, empty.clone(), share);
            let mut other = empty.clone();
            other[0] = 1;
            list.pass(&file, other, share);
        }
        list.start(&file, vec![4; empty.len()]);
        let mut share = 1;
        for _ in 0..20 {
            list.pass_on(&file, &mut share);
        }
    }
}

/// Parts of networks that reach nothing, flow that circulates there, and ties.
fn oddities(list: &mut List) {
    let mut dice = Dice::new(14);
    // Nodes 2 and 3 go round between themselves and come from nowhere; node 4
    // has only a way in, node 5 only a way out, node 6 nothing at all.
    let draft = Draft {
        nodes: 7,
        links: vec![
            [0, 1, 10, 10, 2],
            [0, 1, 15, 0, 1],
            [2, 3, 5, 9, 4],
            [3, 2, 6, 9, 4],
            [1, 4, 1, 1, 1],
            [5, 0, 2, 2, 2],
            [1, 0, 3, 90, 1],
        ],
        destinations: vec![1, 3],
        trips: vec![vec![2, 0, 0, 0, 0, 1, 0], vec![0, 0, 5, 0, 0, 0, 0]],
    };
    let file = draft.file();
    list.each(&file, &[0; 14], draft.packed_length());
    for budget in [1, 4, 30, 1_024] {
        list.run(&file, vec![0; 14], budget, 0);
    }
    for share in [1, 3, 40, 1_000, 1_024] {
        let straight = draft.wandering_table(&mut dice, share);
        // Flow to 1 going round between 2 and 3, which never get there; flow
        // to 3 going round between 0 and 1; flow to 1 going through 1.
        for (places, amount) in [
            ([2, 3], share),
            ([2, 3], 3 * share),
            ([2, 3], 3 * share + 1),
            ([7, 13], share),
            ([0, 6], 2),
            ([6, 6], 1),
            ([4, 4], 1),
        ] {
            let mut table = straight.clone();
            for place in places {
                table[place] += amount;
            }
            list.audit(&file, table.clone(), share);
            list.pass(&file, table, share);
        }
    }

    // Equal times everywhere, and links side by side: ties at every node.
    for trips in [1, 9, 1_000] {
        let mut links = grid(&mut Dice::new(1), 3, 3, 100, 1, 4);
        for link in &mut links {
            link[2] = 4;
            link[3] = 2;
        }
        links.extend(links.clone());
        let plan = Plan {
            nodes: (9, 9),
            links: (1, 1),
            destinations: 4,
            time: 1,
            capacity: 1,
            trips,
            tenths: 8,
        };
        let draft = plan.with_links(&mut dice, 9, links);
        let file = draft.file();
        list.start(&file, vec![1; draft.table_length()]);
        let mut share = 1;
        for _ in 0..6 {
            list.pass_on(&file, &mut share);
        }
        list.audit_on(&file, share);
        list.run_on(&file, 40, 1);
    }
}

/// Many small studies of all kinds.
fn small_studies(list: &mut List) {
    let mut dice = Dice::new(15);
    for _ in 0..110 {
        let draft = Plan::small(&mut dice).draft(&mut dice);
        let gap: Vec<u8> = (0..40).map(|_| dice.roll() as u8).collect();
        let file = if dice.once_in(3) {
            let gaps = [(); 4].map(|()| &gap[..dice.index(40)]);
            draft.file_with_gaps(gaps)
        } else {
            draft.file()
        };
        calls_for(list, &mut dice, &draft, &file);

        // A few bytes changed somewhere.
        for _ in 0..2 {
            let mut other = file.clone();
            for _ in 0..dice.between(1, 2) {
                let place = dice.index(other.len());
                other[place] = dice.pick(&[0, 1, 2, 5, 64, 128, 255]);
            }
            if dice.once_in(5) {
                other.truncate(dice.index(other.len()));
            }
            list.check(&other);
            if dice.once_in(3) {
                list.start(&other, vec![6; draft.table_length()]);
            }
        }
    }
}

/// Street grids crowded enough for runs of many tables.
fn long_runs(list: &mut List) {
    let mut dice = Dice::new(18);
    for (wide, high) in [
        (2, 2),
        (3, 2),
        (4, 1),
        (3, 3),
        (4, 3),
        (5, 4),
        (6, 4),
        (6, 4),
    ] {
        for capacity in [6, 40, 700] {
            let links = grid(&mut dice, wide, high, 512, 200, capacity);
            let plan = Plan {
                nodes: (1, 1),
                links: (1, 1),
                destinations: u64::from(wide * high),
                time: 1,
                capacity: 1,
                trips: 1 + 2 * capacity / u64::from(wide),
                tenths: 9,
            };
            let draft = plan.with_links(&mut dice, wide * high, links);
            let file = draft.file();
            list.run(&file, vec![1; draft.table_length()], 1_024, 0);
            list.run_on(&file, 25, 0);
            list.run_on(&file, 400, 2);
        }
    }
}

/// A round of calls with tables of all kinds for one study.
fn calls_for(list: &mut List, dice: &mut Dice, draft: &Draft, file: &[u8]) {
    let length = draft.table_length();
    list.check(file);
    let room = draft.packed_length() + dice.index(4) - dice.index(2);
    list.pack(file, vec![dice.roll() as u8; room]);

    let garbage: Vec<u32> = (0..length + dice.index(3))
        .map(|_| dice.any_u32())
        .collect();
    let excess = dice.pick(&[0, 0, 1, 5, 80, 2_000, 65_535]);
    list.run(file, garbage.clone(), dice.between(1, 30) as u32, excess);
    if dice.once_in(4) {
        list.run_on(file, 1_024, 0);
    }

    list.start(file, garbage);
    let mut share = 1;
    for _ in 0..dice.between(2, 6) {
        match dice.below(6) {
            0 => list.audit_on(file, share),
            1 => list.pass_on(file, &mut (share ^ dice.any_u32() | 1)),
            _ => list.pass_on(file, &mut share),
        }
    }
    list.audit_on(file, share);

    let share = dice.pick(&[1, 2, 3, 10, 64, 100, 512, 960, 1_000, 1_023, 1_024]);
    let mut table = draft.wandering_table(dice, share);
    list.audit(file, table.clone(), share);
    list.pass(file, table.clone(), share);
    let total = draft.total() as u32;
    let amount = dice.pick(&[1, share, share * total / 3, share * total]);
    if draft.add_cycle(dice, &mut table, amount) {
        list.audit(file, table.clone(), share);
        let mut reached = share;
        list.pass_on(file, &mut reached);
        if dice.once_in(2) {
            list.pass_on(file, &mut reached);
        }
    }
    if dice.once_in(2) {
        let place = dice.index(length);
        table[place] = dice.any_u32();
        list.audit(file, table, share);
    }
}

/// Every link as full as question 15 allows: the highest cost there is.
fn crowded_links(list: &mut List) {
    // 256 links from 0 to 1 and 254 back, and a way back by 2: of all links
    // into and out of a node, as many carry in as out, but for one out of 0.
    for (rise, capacity) in [(16_383, 1), (16_383, 65_535), (0, 1), (77, 9_000)] {
        let road = |tail: u16, head: u16| -> DraftLink { [tail, head, 16_383, rise, capacity] };
        let mut links = vec![road(0, 1); 256];
        links.extend(vec![road(1, 0); 254]);
        links.extend([road(1, 2), road(2, 0)]);
        let draft = Draft {
            nodes: 3,
            links,
            destinations: vec![1],
            trips: vec![vec![65_535, 0, 0]],
        };
        let file = draft.file();
        for share in [1, 64, 511, 1_024] {
            let mut table = vec![share * 65_535; 512];
            list.pass(&file, table.clone(), share);
            list.audit_on(&file, share);
            table[511] += 1;
            list.audit(&file, table, share);
        }
        list.run(&file, vec![0; 512], 300, 0);
    }
    // The same split over destinations that have no trips of their own.
    let mut links = vec![[0, 1, 9, 9_000, 3]; 12];
    links.extend(vec![[1, 0, 9, 9_000, 3]; 11]);
    let draft = Draft {
        nodes: 2,
        links,
        destinations: vec![0, 1],
        trips: vec![vec![0, 0], vec![60_000, 0]],
    };
    let file = draft.file();
    for share in [2, 1_000] {
        let mut table = vec![share * 60_000; 46];
        table[0] = 0; // 11 links to and fro for destination 0 ...
        table[1..23].fill(share * 20_000);
        table[23..].fill(share * 40_000);
        table[23] = share * 60_000; // ... and the trips themselves
        list.audit(&file, table.clone(), share);
        list.pass(&file, table.clone(), share);
        table[1] += 1;
        list.pass(&file, table, share);
    }
}

/// A line of 128 nodes at the highest times: the largest distances.
fn long_line(list: &mut List) {
    let mut links: Vec<DraftLink> = Vec::new();
    for node in 0..127 {
        links.push([node, node + 1, 16_383, 16_383, 1]);
        links.push([node + 1, node, 16_383, 16_383, 1]);
        links.push([node + 1, node, 16_383, 16_382, 1]);
    }
    let mut trips = vec![0; 128];
    trips[127] = 65_000;
    let draft = Draft {
        nodes: 128,
        links,
        destinations: vec![0, 127],
        trips: vec![trips, vec![0; 128]],
    };
    let file = draft.file();
    list.start(&file, vec![0; draft.table_length()]);
    let mut share = 1;
    for _ in 0..4 {
        list.audit_on(&file, share);
        list.pass_on(&file, &mut share);
    }
    list.run_on(&file, 1_024, 0);
}

/// Studies at one limit and small otherwise.
fn single_limits(list: &mut List) {
    let mut dice = Dice::new(16);
    for (nodes, links, destinations) in [
        (128, 130, 1),
        (128, 256, 2),
        (128, 20, 3),
        (127, 140, 2),
        (2, 512, 1),
        (2, 512, 2),
        (5, 512, 2),
        (5, 511, 1),
        (32, 64, 32),
        (33, 40, 32),
        (40, 90, 31),
        (32, 1, 32),
    ] {
        for wild in [false, true] {
            let plan = Plan {
                nodes: (nodes, nodes),
                links: (links, links),
                destinations,
                time: if wild { 16_383 } else { 50 },
                capacity: if wild { 65_535 } else { 20 },
                trips: if wild { 65_535 } else { 9 },
                tenths: 3,
            };
            let mut draft = plan.draft(&mut dice);
            while draft.destinations.len() < destinations as usize {
                draft = plan.with_links(&mut dice, nodes as u16, draft.links);
            }
            let file = draft.file();
            list.check(&file);
            list.pack(&file, vec![0; draft.packed_length() + 1]);
            list.start(&file, vec![0x77; draft.table_length()]);
            let mut share = 1;
            list.pass_on(&file, &mut share);
            list.pass_on(&file, &mut share);
            list.audit_on(&file, share);
            list.run_on(&file, 12, 3);
            let share = dice.between(1, 1_024) as u32;
            let mut table = draft.wandering_table(&mut dice, share);
            draft.add_cycle(&mut dice, &mut table, share);
            list.pass(&file, table, share);
        }
    }
}

/// Studies with 128 nodes, 512 links and 32 destinations.
fn full_limits(list: &mut List) {
    let mut dice = Dice::new(17);
    for turn in 0..14 {
        let plan = Plan {
            nodes: (128, 128),
            links: (512, 512),
            destinations: 32,
            time: dice.pick(&[2, 60, 500, 16_383]),
            capacity: dice.pick(&[3, 100, 900, 65_535]),
            trips: dice.pick(&[1, 14, 30]),
            tenths: dice.between(3, 10),
        };
        let links = if turn % 2 == 0 {
            let mut links = grid(&mut dice, 16, 8, 512, plan.time, plan.capacity);
            while links.len() < 512 {
                links.push([
                    dice.below(64) as u16,
                    64 + dice.below(64) as u16,
                    dice.between(1, plan.time) as u16,
                    dice.between(0, plan.time) as u16,
                    dice.between(1, plan.capacity) as u16,
                ]);
            }
            links
        } else {
            plan.draft(&mut dice).links
        };
        let mut draft = plan.with_links(&mut dice, 128, links);
        while draft.destinations.len() < 32 {
            draft = plan.with_links(&mut dice, 128, draft.links);
        }
        if turn == 3 {
            // Exactly the most trips.
            let more = 65_535 - draft.total();
            let (position, node) = (0..32)
                .flat_map(|position| (0..128).map(move |node| (position, node)))
                .find(|&(position, node)| draft.trips[position][node] > 0)
                .expect("some node has trips");
            draft.trips[position][node] += more as u16;
        }
        let file = draft.file();
        list.check(&file);
        if turn % 2 == 1 {
            list.pack(&file, vec![1; draft.packed_length()]);
        }
        list.start(&file, vec![dice.any_u32(); draft.table_length()]);
        let mut share = 1;
        for _ in 0..5 {
            list.pass_on(&file, &mut share);
        }
        list.audit_on(&file, share);
        list.pass_on(&file, &mut (share + 1));
        list.run_on(&file, dice.between(5, 25) as u32, dice.below(20) as u16);

        // A wandering table with cycles, a damaged one and one too short.
        let share = dice.pick(&[1, 7, 100, 513, 1_023, 1_024]);
        if turn % 3 != 0 {
            continue;
        }
        let mut table = draft.wandering_table(&mut dice, share);
        for _ in 0..6 {
            draft.add_cycle(&mut dice, &mut table, share);
        }
        let mut reached = share;
        list.audit(&file, table.clone(), share);
        list.pass_on(&file, &mut reached);
        list.pass_on(&file, &mut reached);
        if turn == 6 {
            table[16_383] += 1;
            list.audit(&file, table.clone(), share);
            table.pop();
            list.audit(&file, table, share);
        }
    }
}

/// A study with 128 nodes, 512 links and 32 destinations: streets 16 by 8, and
/// links to the last node.
fn largest(dice: &mut Dice, capacity: u64) -> Draft {
    let plan = Plan {
        nodes: (128, 128),
        links: (512, 512),
        destinations: 32,
        time: 300,
        capacity,
        trips: 30,
        tenths: 9,
    };
    let mut links = grid(dice, 16, 8, 512, 300, capacity);
    links.resize_with(512, || [dice.below(64) as u16, 127, 900, 9, 9]);
    let mut draft = plan.with_links(dice, 128, links);
    while draft.destinations.len() < 32 {
        draft = plan.with_links(dice, 128, draft.links);
    }
    draft
}

/// Numbers of a note that is longer than any study without lorries needs.
const LONG_NOTE: usize = 4_100;

/// A note before the call, with as many different numbers as it can have.
fn patterned_note(length: usize) -> Vec<u16> {
    (0..length as u32)
        .map(|place| (40_503 * place + 12_345) as u16)
        .collect()
}

/// A page slice before the call, without a byte of 0 in it.
fn paper(length: usize) -> Vec<u8> {
    (0..length).map(|byte| (byte % 255) as u8 + 1).collect()
}

/// A study whose links all lead from 0 to 1, with trips between them.
fn side_by_side(roads: &[[u16; 3]], trips: u16) -> Draft {
    Draft {
        nodes: 2,
        links: roads.iter().map(|&[a, b, c]| [0, 1, a, b, c]).collect(),
        destinations: vec![1],
        trips: vec![vec![trips, 0]],
    }
}

/// Pages of studies with 128 nodes, 512 links and 32 destinations, and the
/// longest file.
fn pages_of_full_limits(list: &mut List) {
    let mut dice = Dice::new(19);
    // The table that the last call left serves here too, which spares the
    // stream another one of its length.
    assert_eq!(list.player.table.len(), 32 * 512);
    for turn in 0..2 {
        let plan = Plan {
            nodes: (128, 128),
            links: (512, 512),
            destinations: 32,
            time: dice.pick(&[500, 16_383]),
            capacity: 700,
            trips: 40,
            tenths: 9,
        };
        let mut links = if turn == 0 {
            grid(&mut dice, 16, 8, 512, plan.time, plan.capacity)
        } else {
            plan.draft(&mut dice).links
        };
        while links.len() < 512 {
            links.push(dice.pick(&links));
        }
        let mut draft = plan.with_links(&mut dice, 128, links);
        while draft.destinations.len() < 32 {
            draft = plan.with_links(&mut dice, 128, draft.links);
        }
        let gap = vec![0x20; 65_536 - draft.packed_length()];
        let file = if turn == 0 {
            draft.file_with_gaps([&[], &gap, &[], &[]])
        } else {
            draft.file()
        };
        let mut share = list.run_on(&file, 4 + 50 * turn, 0);
        list.page_on(&file, share, paper(15_360));
        list.pass_on(&file, &mut share);
        list.page_on(&file, share + 1, paper(40));
        list.page_on(&file, share, paper(15_359 + 3 * turn as usize));
        if turn == 0 {
            let longer = [file.as_slice(), &[0]].concat();
            list.page_on(&longer, share, paper(40));
        }
    }

    // Every link as full as question 15 allows, at the longest time.
    let mut links = vec![[0, 1, 16_383, 16_383, 1]; 256];
    links.extend(vec![[1, 0, 16_383, 16_383, 1]; 255]);
    links.push([1, 127, 16_383, 16_383, 65_535]);
    let draft = Draft {
        nodes: 128,
        links,
        destinations: vec![1],
        trips: vec![
            (0..128)
                .map(|node| u16::MAX * u16::from(node == 0))
                .collect(),
        ],
    };
    let mut table = vec![1_024 * 65_535; 512];
    table[511] = 0;
    list.page(&draft.file(), &table, 1_024, paper(15_360));
    table[510] += 1;
    list.page(&draft.file(), &table, 1_024, paper(10));
}

/// Pages of the town of two roads.
fn pages_of_the_town(list: &mut List) {
    let file = Draft::town().file();
    for length in [0, 1, 29, 30, 31, 59, 60, 61, 89, 90, 300] {
        list.page(&file, &[16, 2], 9, paper(length));
    }
    for table in [
        [16, 2, 0].as_slice(),
        &[16, 2, u32::MAX, 7],
        &[16, 2, 16, 2],
    ] {
        list.page(&file, table, 9, paper(60));
        list.page(&file, table, 9, paper(59));
    }
    for (table, share) in [
        ([2, 0], 1),
        ([0, 2], 1),
        ([1, 1], 1),
        ([1, 3], 2),
        ([1, 5], 3),
        ([13, 1], 7),
        ([16, 0], 8),
        ([18, 0], 9),
        ([0, 18], 9),
        ([511, 1_537], 1_024),
        ([10, 2_038], 1_024),
        ([11, 2_037], 1_024),
        ([1, 2_047], 1_024),
        ([2_048, 0], 1_024),
        ([2_045, 1], 1_023),
    ] {
        list.page(&file, &table, share, paper(60));
    }
    // Tables too short, shares, totals and conservation, each with a page
    // slice that is long enough and with one that is not.
    for (table, share) in [
        ([].as_slice(), 9),
        (&[16], 9),
        (&[16], 0),
        (&[16, 2], 0),
        (&[16, 2], 1),
        (&[16, 2], 10),
        (&[16, 2], 1_025),
        (&[16, 2], u32::MAX),
        (&[19, 0], 0),
        (&[19, 0], 9),
        (&[0, 19], 9),
        (&[16, 1], 9),
        (&[18, 1], 9),
        (&[u32::MAX, 3], 9),
    ] {
        list.page(&file, table, share, paper(60));
        list.page(&file, table, share, paper(59));
    }
    // The table goes from call to call, through pages and refused pages too.
    list.start(&file, vec![3, 4, 5]);
    let mut share = 1;
    for turn in 0..6 {
        list.page_on(&file, share, paper(59 + turn % 3));
        list.pass_on(&file, &mut share);
    }
    list.audit_on(&file, share);
    list.page_on(&file, share, paper(60));
    let share = list.run_on(&file, 10, 0);
    list.page_on(&file, share, paper(64));
    list.page_on(&file, share, paper(60));
    list.audit_on(&file, share);
}

/// Every file at a boundary, and questions 12 to 18 with the sample study.
fn pages_and_questions(list: &mut List) {
    for (turn, file) in files_at_boundaries().iter().enumerate() {
        let mut table = vec![0; 10];
        if start(file, &mut table) == 0 {
            list.page(file, &table, 1, paper(150));
            continue;
        }
        // Behind the file's fault come none, or several.
        match turn % 3 {
            0 => list.page(file, &table, 1, paper(150)),
            1 => list.page(file, &table, 0, paper(149)),
            _ => list.page(file, &table[..9], 1, paper(0)),
        }
    }

    let file = sample().file();
    let mut table = vec![0; 10];
    start(&file, &mut table);
    let changed = |place: usize, number: u32| {
        let mut other = table.clone();
        other[place] = number;
        other
    };
    for table in [
        table[..9].to_vec(),
        table.clone(),
        changed(0, table[0] + 1),
        changed(9, u32::MAX),
        vec![0; 10],
    ] {
        for share in [0, 1, 1_024, 1_025] {
            for length in [149, 150] {
                list.page(&file, &table, share, paper(length));
            }
        }
    }
}

/// Volumes of every number of digits, on both sides of every edge.
fn volumes_on_a_page(list: &mut List) {
    // All trips on one link, or all but one of their parts.
    let file = side_by_side(&[[10, 10, 2_000], [15, 0, 1]], 65_535).file();
    for share in [1, 100, 1_023, 1_024] {
        let most = 65_535 * share;
        for first in [0, 1, most - 1, most] {
            list.page(&file, &[first, most - first], share, paper(60));
        }
    }
    // As many hundredths as these, or one part of a trip less.
    let volumes = [
        1, 9, 10, 99, 100, 999, 1_000, 9_999, 10_000, 99_999, 100_000, 999_999, 1_000_000,
    ];
    let file = side_by_side(&[[7, 60, 900]; 14], 65_535).file();
    for share in [3, 99, 100, 101, 1_000, 1_023, 1_024] {
        for less in [0, 1] {
            let mut table: Vec<u32> = volumes
                .iter()
                .map(|&volume: &u32| (volume * share).div_ceil(100) - less)
                .collect();
            table.push(65_535 * share - table.iter().sum::<u32>());
            list.page(&file, &table, share, paper(420));
        }
    }
    // The volume is that of all destinations together, and floored once.
    let draft = Draft {
        nodes: 3,
        links: vec![[0, 1, 5, 5, 5], [1, 2, 5, 5, 5], [2, 0, 5, 5, 5]],
        destinations: vec![0, 1, 2],
        trips: vec![vec![0, 1, 0], vec![0, 0, 1], vec![1, 0, 0]],
    };
    let file = draft.file();
    for share in [1, 3, 7, 1_024] {
        let straight = [0, share, share, share, 0, share, share, share, 0];
        list.page(&file, &straight, share, paper(90));
        // One part more goes round for each destination.
        list.page(&file, &straight.map(|flow| flow + 1), share, paper(90));
    }
}

/// Times of every number of digits.
fn times_on_a_page(list: &mut List) {
    // Free times, and from four times capacity on a + 256·b.
    let roads = [
        [1, 0, 1],
        [9, 0, 1],
        [10, 0, 1],
        [99, 0, 1],
        [100, 0, 1],
        [999, 0, 1],
        [1_000, 0, 1],
        [9_999, 0, 1],
        [10_000, 0, 1],
        [16_383, 0, 1],
        [159, 390, 1],
        [160, 390, 1],
        [63, 3_906, 1],
        [64, 3_906, 1],
        [16_383, 16_382, 1],
        [16_382, 16_383, 1],
        [16_383, 16_383, 1],
        [16_383, 16_383, 65_535],
    ];
    let file = side_by_side(&roads, 4 * 18).file();
    for share in [1, 9, 1_024] {
        list.page(&file, &[4 * share; 18], share, paper(540));
        let mut table = [0; 18];
        table[0] = 72 * share;
        list.page(&file, &table, share, paper(540));
    }
    // Step by step, on both sides of each edge.
    let file = side_by_side(&[[3, 16_383, 64], [16_383, 77, 3]], 300).file();
    for step in [0, 1, 2, 3, 5, 31, 63, 64, 65, 127, 180, 255, 256, 257, 300] {
        list.page(&file, &[step, 300 - step], 1, paper(60));
        if step > 0 {
            let first = 1_000 * step - 1;
            list.page(&file, &[first, 300_000 - first], 1_000, paper(60));
        }
    }
}

/// Links and nodes with numbers of one, two and three digits.
fn numbers_on_a_page(list: &mut List) {
    let nodes = [0, 9, 10, 99, 100, 127];
    let mut links: Vec<DraftLink> = Vec::new();
    for (&tail, &head) in nodes.iter().zip(&nodes[1..]) {
        links.push([tail, head, 100 + tail, head, 2]);
        links.push([head, tail, 100 + head, tail, 2]);
    }
    let trips = |goal: u16| -> Vec<u16> {
        (0..128)
            .map(|node| u16::from(node != goal && nodes.contains(&node)) * (1 + node % 4))
            .collect()
    };
    let draft = Draft {
        nodes: 128,
        links,
        destinations: vec![9, 100],
        trips: vec![trips(9), trips(100)],
    };
    let file = draft.file();
    list.start(&file, vec![1; 20]);
    let mut share = 1;
    for _ in 0..3 {
        list.page_on(&file, share, paper(300));
        list.pass_on(&file, &mut share);
    }
    for count in [1, 10, 11, 100, 101] {
        let roads: Vec<[u16; 3]> = (1..=count).map(|a| [a, 2 * a, a]).collect();
        let draft = side_by_side(&roads, 1_000);
        let table = draft.wandering_table(&mut Dice::new(20), 64);
        list.page(&draft.file(), &table, 64, paper(30 * roads.len()));
    }
}

/// Pages of small studies of all kinds, and of crowded street grids, where
/// shares grow.
fn pages_of_small_studies(list: &mut List) {
    let mut dice = Dice::new(21);
    for turn in 0..16 {
        let plan = Plan::small(&mut dice);
        let draft = if turn % 2 == 0 {
            plan.draft(&mut dice)
        } else {
            let (wide, high) = (dice.between(2, 4) as u16, dice.between(2, 3) as u16);
            let links = grid(&mut dice, wide, high, 512, 200, 40);
            let crowd = Plan { trips: 25, ..plan };
            crowd.with_links(&mut dice, wide * high, links)
        };
        let file = draft.file();
        let length = 30 * draft.links.len();
        let more = |dice: &mut Dice| length + dice.pick(&[0, 0, 1, 17]);

        list.start(&file, vec![dice.any_u32(); draft.table_length()]);
        let mut share = 1;
        for _ in 0..dice.between(1, 3) {
            list.pass_on(&file, &mut share);
        }
        list.page_on(&file, share, paper(more(&mut dice)));
        let share = list.run_on(&file, dice.pick(&[5, 30, 1_024]), 0);
        list.page_on(&file, share, paper(more(&mut dice)));

        let share = dice.pick(&[1, 3, 10, 64, 513, 1_000, 1_023, 1_024]);
        let mut table = draft.wandering_table(&mut dice, share);
        list.page(&file, &table, share, paper(more(&mut dice)));
        let amount = dice.pick(&[1, share, share * draft.total() as u32 / 3]);
        if draft.add_cycle(&mut dice, &mut table, amount) {
            list.page(&file, &table, share, paper(more(&mut dice)));
        }
        let place = dice.index(table.len());
        table[place] = table[place].wrapping_add(dice.pick(&[1, u32::MAX]));
        list.page(&file, &table, share, paper(length));
    }
}
