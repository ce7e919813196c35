//! The definitions of document 01 and of requests A.1, A.2 and A.4 to A.8 of
//! document 02, word for word and by brute force, in whole numbers of 128 bits
//! with a sign.

use second::stream::Calls;
use second::{AuditAnswer, Desk, DesksAnswer, PassAnswer, RunAnswer, TakeBackAnswer};

type Whole = i128;

struct Link {
    tail: Whole,
    head: Whole,
    a: Whole,
    b: Whole,
    c: Whole,
    /// "the sixth u16 is the power q"; "Versions 1 and 2 have power 4."
    q: Whole,
}

/// "a second trip table": lorries.
#[derive(Clone, Copy, PartialEq, Eq)]
enum Class {
    Cars,
    Lorries,
}

/// "Header, 32 bytes ... Links ... Destinations ... Trips"; "A version 2 study
/// has a 40-byte header and a fourth pair after trips"; "A version 3 study is
/// version 2 with 12-byte links"; "Version 4 is version 3 with a 56-byte header
/// and two more pairs".
struct Study {
    version: Whole,
    n: Whole,
    m: usize,
    p: usize,
    links: Vec<Link>,
    destinations: Vec<Whole>,
    /// "for each destination s in order, for each node j from 0, u16 D(j,s)";
    /// "lorry trips, laid out as trips": by row.
    trips: Vec<Vec<Whole>>,
    /// "n bytes, 1 for a closed node, 0 for open"; "Version 1 has every node
    /// open."
    closed: Vec<u8>,
    /// "m bytes, 1 where lorries are barred"
    barred: Vec<u8>,
    total: Whole,
}

impl Study {
    /// "cars first and lorries after": the rows of trips, of a table and of a
    /// note, each with its class and destination.
    fn rows(&self) -> Vec<(Class, Whole)> {
        let classes = match self.version {
            4 => vec![Class::Cars, Class::Lorries],
            _ => vec![Class::Cars],
        };
        let mut rows = Vec::new();
        for class in classes {
            for &s in &self.destinations {
                rows.push((class, s));
            }
        }
        rows
    }

    /// "A link whose head is closed may carry only flow to that head."
    /// "Lorry paths, lorry next links ... keep off barred links."
    fn may_carry(&self, l: usize, class: Class, s: Whole) -> bool {
        let head = self.links[l].head;
        let barred = class == Class::Lorries && self.barred[l] == 1;
        !barred && (self.closed[head as usize] == 0 || head == s)
    }
}

/// A table: for each row, for each link, Wths.
type Table = Vec<Vec<Whole>>;

fn u16_at(bytes: &[u8], place: usize) -> Whole {
    Whole::from(bytes[place]) + 256 * Whole::from(bytes[place + 1])
}

fn u32_at(bytes: &[u8], place: usize) -> Whole {
    u16_at(bytes, place) + 65_536 * u16_at(bytes, place + 2)
}

/// "a 40-byte header and a fourth pair after trips"; "a 56-byte header and two
/// more pairs": bytes of the header and number of pairs.
fn header(version: Whole) -> (usize, usize) {
    match version {
        1 => (32, 3),
        2 | 3 => (40, 4),
        4 => (56, 6),
        _ => unreachable!("question 2"),
    }
}

/// "Links, 10 bytes each, five u16"; "12-byte links; the sixth u16 is the power
/// q".
fn link_bytes(version: Whole) -> usize {
    if version >= 3 { 12 } else { 10 }
}

/// "Are the lengths 10m, 2p and 2pn?" "the fourth length is n (question 5)";
/// "Question 5 reads 12m"; "Their lengths are 2pn and m (question 5)"
fn lengths(version: Whole, n: usize, m: usize, p: usize) -> Vec<usize> {
    let all = [link_bytes(version) * m, 2 * p, 2 * p * n, n, 2 * p * n, m];
    let (_, pairs) = header(version);
    all[..pairs].to_vec()
}

/// Questions 1 to 5. Hands back version, n, m, p and the sections.
fn sections(file: &[u8]) -> Result<([Whole; 4], Vec<&[u8]>), u8> {
    // 1. Is the file 32 to 65,536 bytes long?
    if !(file.len() >= 32 && file.len() <= 65_536) {
        return Err(1);
    }
    // 2. Is the version 1? "Question 2 admits version 2, and later each version
    //    that a request brings."
    let version = u16_at(file, 0);
    if !(version == 1 || version == 2 || version == 3 || version == 4) {
        return Err(2);
    }
    // 3. Is n 2 to 128, m 1 to 512, p 1 to 32, and p at most n?
    let (n, m, p) = (u16_at(file, 2), u16_at(file, 4), u16_at(file, 6));
    if !((2..=128).contains(&n) && (1..=512).contains(&m) && (1..=32).contains(&p) && p <= n) {
        return Err(3);
    }
    // 4. "a version 2 file under 40 bytes fails question 4"; "a version 4 file
    //    under 56 bytes fails question 4"
    let (header, pairs) = header(version);
    if file.len() < header {
        return Err(4);
    }
    // 4. Is the first offset at least 32 (40 in versions 2 and 3, 56 in version
    //    4), does each section end at or before the next offset, and the last
    //    within the file?
    let offset: Vec<Whole> = (0..pairs).map(|k| u32_at(file, 8 + 8 * k)).collect();
    let length: Vec<Whole> = (0..pairs).map(|k| u32_at(file, 12 + 8 * k)).collect();
    let in_order = (1..pairs).all(|k| offset[k - 1] + length[k - 1] <= offset[k]);
    let last = offset[pairs - 1] + length[pairs - 1];
    if !(offset[0] >= header as Whole && in_order && last <= file.len() as Whole) {
        return Err(4);
    }
    // 5. Are the lengths 10m, 2p and 2pn?
    let wanted = lengths(version, n as usize, m as usize, p as usize);
    if (0..pairs).any(|k| length[k] != wanted[k] as Whole) {
        return Err(5);
    }
    let section = |k: usize| &file[offset[k] as usize..(offset[k] + length[k]) as usize];
    Ok(([version, n, m, p], (0..pairs).map(section).collect()))
}

/// "for each destination s in order, for each node j from 0, u16 D(j,s)"
fn trip_table(section: &[u8], n: usize) -> Vec<Vec<Whole>> {
    let rows = section.chunks(2 * n);
    rows.map(|row| (0..n).map(|j| u16_at(row, 2 * j)).collect())
        .collect()
}

/// The study that the file has, without questions 6 to 11.
fn unasked(file: &[u8]) -> Result<Study, u8> {
    let ([version, n, m, p], section) = sections(file)?;
    let bytes = link_bytes(version);
    let links = (0..m as usize)
        .map(|l| Link {
            tail: u16_at(section[0], bytes * l),
            head: u16_at(section[0], bytes * l + 2),
            a: u16_at(section[0], bytes * l + 4),
            b: u16_at(section[0], bytes * l + 6),
            c: u16_at(section[0], bytes * l + 8),
            q: match version {
                3 | 4 => u16_at(section[0], bytes * l + 10),
                _ => 4,
            },
        })
        .collect();
    let destinations = (0..p as usize)
        .map(|position| u16_at(section[1], 2 * position))
        .collect();
    let mut trips = trip_table(section[2], n as usize);
    if version == 4 {
        trips.extend(trip_table(section[4], n as usize));
    }
    let closed = match version {
        1 => vec![0; n as usize],
        _ => section[3].to_vec(),
    };
    let barred = match version {
        4 => section[5].to_vec(),
        _ => vec![0; m as usize],
    };
    Ok(Study {
        version,
        n,
        m: m as usize,
        p: p as usize,
        links,
        destinations,
        total: trips.iter().flatten().sum(),
        trips,
        closed,
        barred,
    })
}

/// Questions 1 to 11, with 19 and 23 after 8.
fn study(file: &[u8]) -> Result<Study, u8> {
    let study = unasked(file)?;
    let n = study.n;
    // 6. Are each link's tail and head below n and different?
    for link in &study.links {
        if !(link.tail < n && link.head < n && link.tail != link.head) {
            return Err(6);
        }
    }
    // 7. Are a 1 to 16,383, b 0 to 16,383, c at least 1 on every link?
    //    "question 7 includes q", "1 to 4"
    for link in &study.links {
        let times = link.a >= 1 && link.a <= 16_383 && link.b <= 16_383;
        if !(times && link.c >= 1 && link.q >= 1 && link.q <= 4) {
            return Err(7);
        }
    }
    // 8. Are the destinations below n and strictly ascending?
    let destinations = &study.destinations;
    for position in 0..destinations.len() {
        if destinations[position] >= n
            || (position > 0 && destinations[position - 1] >= destinations[position])
        {
            return Err(8);
        }
    }
    // "19, a closed byte above 1, after 8"
    if study.closed.iter().any(|&byte| byte > 1) {
        return Err(19);
    }
    // "23, a barred byte above 1, after 19"
    if study.barred.iter().any(|&byte| byte > 1) {
        return Err(23);
    }
    // 9. Is D(s,s) zero for every destination? "Questions 9, 10, 11 and 16
    //    speak to both tables, 10 of their sum."
    for (row, (_, s)) in study.rows().into_iter().enumerate() {
        if study.trips[row][s as usize] != 0 {
            return Err(9);
        }
    }
    // 10. Is the total of trips, T, at most 65,535?
    if study.total > 65_535 {
        return Err(10);
    }
    // 11. Does every node with trips to s have a path to s?
    if !paths_exist(&study) {
        return Err(11);
    }
    Ok(study)
}

/// "Does every node with trips to s have a path to s?" "Paths ... obey this."
/// "question 11 for lorries ... keep off barred links"
fn paths_exist(study: &Study) -> bool {
    for (row, (class, s)) in study.rows().into_iter().enumerate() {
        let mut has_path = vec![false; study.n as usize];
        has_path[s as usize] = true;
        for _ in 0..study.n {
            for (l, link) in study.links.iter().enumerate() {
                if has_path[link.head as usize] && study.may_carry(l, class, s) {
                    has_path[link.tail as usize] = true;
                }
            }
        }
        for (&trips, &has_path) in study.trips[row].iter().zip(&has_path) {
            if trips > 0 && !has_path {
                return false;
            }
        }
    }
    true
}

/// "at place (position of s) × m + l"; "The flow table holds cars first and
/// lorries after"
fn take(study: &Study, numbers: &[u32]) -> Table {
    (0..study.rows().len())
        .map(|row| {
            (0..study.m)
                .map(|l| Whole::from(numbers[row * study.m + l]))
                .collect()
        })
        .collect()
}

fn give(study: &Study, table: &Table, numbers: &mut [u32]) {
    for (row, flows) in table.iter().enumerate() {
        for (l, &flow) in flows.iter().enumerate() {
            numbers[row * study.m + l] = u32::try_from(flow).unwrap();
        }
    }
}

/// "S is a link's total over destinations." "S is the total of both."
fn totals(study: &Study, table: &Table) -> Vec<Whole> {
    (0..study.m)
        .map(|l| table.iter().map(|flows| flows[l]).sum())
        .collect()
}

/// "It conserves when for each s and each node j other than s: flow to s
/// out of j = flow to s into j + W × D(j,s)".
fn conserves(study: &Study, table: &Table, w: Whole) -> bool {
    for (row, (_, s)) in study.rows().into_iter().enumerate() {
        for j in 0..study.n {
            if j != s {
                let (mut out, mut into) = (0, 0);
                for (l, link) in study.links.iter().enumerate() {
                    if link.tail == j {
                        out += table[row][l];
                    }
                    if link.head == j {
                        into += table[row][l];
                    }
                }
                if out != into + w * study.trips[row][j as usize] {
                    return false;
                }
            }
        }
    }
    true
}

/// "Time is a + floor(b·r^q / 64^q)."
fn time_of_step(link: &Link, r: Whole) -> Whole {
    let (mut above, mut below) = (link.b, 1);
    for _ in 0..link.q {
        above *= r;
        below *= 64;
    }
    link.a + above / below
}

/// "Step r = the smaller of 256 and floor(64·S / (c·W))." "The time of a link
/// now comes with a yes or no: step 256 was reached."
fn time(link: &Link, s: Whole, w: Whole) -> (Whole, bool) {
    let r = (64 * s / (link.c * w)).min(256);
    (time_of_step(link, r), r == 256)
}

fn times(study: &Study, totals: &[Whole], w: Whole) -> Vec<Whole> {
    (0..study.m)
        .map(|l| time(&study.links[l], totals[l], w).0)
        .collect()
}

/// "how many links have run onto the level part"
fn over(study: &Study, table: &Table, w: Whole) -> u32 {
    let totals = totals(study, table);
    let mut count = 0;
    for (link, &s) in study.links.iter().zip(&totals) {
        let (_, reached) = time(link, s, w);
        if reached {
            count += 1;
        }
    }
    count
}

/// "The distance from j to s is the least sum of link times over paths, 0
/// at s itself. A node without a path has no distance": by rounds over
/// the links that paths of the class to s may have, until a round changes
/// nothing.
fn distances(study: &Study, times: &[Whole], class: Class, s: Whole) -> Vec<Option<Whole>> {
    let mut distance: Vec<Option<Whole>> = vec![None; study.n as usize];
    distance[s as usize] = Some(0);
    loop {
        let mut changed = false;
        for (l, link) in study.links.iter().enumerate() {
            if let Some(beyond) = distance[link.head as usize]
                && study.may_carry(l, class, s)
            {
                let offer = times[l] + beyond;
                let own = &mut distance[link.tail as usize];
                if own.is_none_or(|own| offer < own) {
                    *own = Some(offer);
                    changed = true;
                }
            }
        }
        if !changed {
            return distance;
        }
    }
}

/// "A node's next link is the lowest-numbered link out of it whose time
/// plus its head's distance equals its own distance." "a destination has
/// none" "next links ... obey this" "lorry next links ... keep off barred links"
fn next_link(
    study: &Study,
    times: &[Whole],
    distance: &[Option<Whole>],
    (class, s): (Class, Whole),
    j: Whole,
) -> Option<usize> {
    if j == s {
        return None;
    }
    let own = distance[j as usize]?;
    (0..study.m).find(|&l| {
        let link = &study.links[l];
        link.tail == j
            && study.may_carry(l, class, s)
            && distance[link.head as usize].is_some_and(|d| times[l] + d == own)
    })
}

/// "Next links are kept by destination and by node", and by class.
type NextLinks = Vec<Vec<Option<usize>>>;

fn next_links(study: &Study, times: &[Whole]) -> NextLinks {
    let rows = study.rows().into_iter();
    rows.map(|(class, s)| {
        let distance = distances(study, times, class, s);
        (0..study.n)
            .map(|j| next_link(study, times, &distance, (class, s), j))
            .collect()
    })
    .collect()
}

/// "The loading Y sends all D(j,s) along next links".
fn loading(study: &Study, next: &NextLinks) -> Table {
    let mut y = Vec::new();
    for (row, (_, s)) in study.rows().into_iter().enumerate() {
        let mut flows = vec![0; study.m];
        for j in 0..study.n as usize {
            let trips = study.trips[row][j];
            let mut node = j;
            while trips > 0 && node as Whole != s {
                let l = next[row][node].unwrap();
                flows[l] += trips;
                node = study.links[l].head as usize;
            }
        }
        y.push(flows);
    }
    y
}

/// "for each link the staircase from 0 to 64·S, where tread r (0 to 255)
/// is c·W wide and has the height t of step r, and tread 256 runs on
/// without end; cost is the sum of the areas over links."
fn cost(study: &Study, table: &Table, w: Whole) -> Whole {
    let mut cost = 0;
    for (link, s) in study.links.iter().zip(totals(study, table)) {
        let mut left = 64 * s;
        for r in 0..256 {
            let width = left.min(link.c * w);
            cost += width * time_of_step(link, r);
            left -= width;
        }
        cost += left * time_of_step(link, 256);
    }
    cost
}

/// "Gap = sum of t·S over links, less W times the sum of D(j,s) × distance."
/// "Gap and rivals take both classes together."
fn gap(study: &Study, table: &Table, w: Whole) -> Whole {
    let totals = totals(study, table);
    let times = times(study, &totals, w);
    let mut gap: Whole = (0..study.m).map(|l| times[l] * totals[l]).sum();
    for (row, (class, s)) in study.rows().into_iter().enumerate() {
        let distance = distances(study, &times, class, s);
        for (&trips, distance) in study.trips[row].iter().zip(distance) {
            if trips > 0 {
                gap -= w * trips * distance.unwrap();
            }
        }
    }
    gap
}

/// "Start: W = 1, the table is Y at empty roads."
fn started(study: &Study) -> Table {
    let times = times(study, &vec![0; study.m], 1);
    loading(study, &next_links(study, &times))
}

/// A table after a move, and the move's note.
struct Moved {
    table: Table,
    w: Whole,
    /// "the note: j, then p·n next links"; "In version 4 the note of A.6 holds
    /// both classes, cars first"
    j: Whole,
    next: NextLinks,
}

/// What a pass makes of a table and its share, if it moves it.
fn moved(study: &Study, table: &Table, w: Whole) -> Option<Moved> {
    let s = totals(study, table);
    let next = next_links(study, &times(study, &s, w));
    let y_table = loading(study, &next);
    let y = totals(study, &y_table);
    let d: Vec<Whole> = (0..study.m).map(|l| w * y[l] - s[l]).collect();
    // "Take the largest j from 1 to the smaller of 64 and 1,024 − W for
    // which the sum of d × (time at flow S + j·Y, share W + j) is at most 0."
    for j in (1..=(1_024 - w).min(64)).rev() {
        let sum: Whole = (0..study.m)
            .map(|l| d[l] * time(&study.links[l], s[l] + j * y[l], w + j).0)
            .sum();
        if sum <= 0 {
            // "If there is one, the table becomes table + j·Y and W
            // becomes W + j."
            let table = (0..table.len())
                .map(|row| {
                    (0..study.m)
                        .map(|l| table[row][l] + j * y_table[row][l])
                        .collect()
                })
                .collect();
            let w = w + j;
            return Some(Moved { table, w, j, next });
        }
    }
    // "If not and 2W is at most 1,024, table and W are doubled. Otherwise
    // there is no move."
    if 2 * w <= 1_024 {
        let doubled = table
            .iter()
            .map(|row| row.iter().map(|flow| 2 * flow).collect())
            .collect();
        // "A doubling has j = 0 and 65,535 throughout."
        return Some(Moved {
            table: doubled,
            w: 2 * w,
            j: 0,
            next: vec![vec![None; study.n as usize]; table.len()],
        });
    }
    None
}

/// "j, then p·n next links as u16, destination by destination, 65,535 for none"
fn give_note(study: &Study, moved: &Moved, note: &mut [u16]) {
    note[0] = u16::try_from(moved.j).unwrap();
    for (row, next) in moved.next.iter().enumerate() {
        for (node, next) in next.iter().enumerate() {
            note[1 + row * study.n as usize + node] =
                next.map_or(65_535, |l| u16::try_from(l).unwrap());
        }
    }
}

/// "21, a node with trips from which the note, for j above 0, does not lead
/// along its own outgoing, permitted links to the destination within n steps":
/// the note's links of all nodes that such walks pass.
fn question_21(study: &Study, note: &[u16]) -> Result<NextLinks, u8> {
    let n = study.n as usize;
    let mut next = vec![vec![None; n]; study.rows().len()];
    for (row, (class, s)) in study.rows().into_iter().enumerate() {
        for j in 0..n {
            if study.trips[row][j] == 0 {
                continue;
            }
            let mut node = j;
            let mut steps = 0;
            while node as Whole != s {
                let l = usize::from(note[1 + row * n + node]);
                if steps == n
                    || l >= study.m
                    || study.links[l].tail != node as Whole
                    || !study.may_carry(l, class, s)
                {
                    return Err(21);
                }
                next[row][node] = Some(l);
                node = study.links[l].head as usize;
                steps += 1;
            }
        }
    }
    Ok(next)
}

/// "Taking back lessens the table by j·Y, Y being the note's loading, and W by
/// j, or halves both." The table and share that are left.
fn taken_back(study: &Study, table: &Table, w: Whole, note: &[u16]) -> Result<(Table, Whole), u8> {
    let j = Whole::from(note[0]);
    if j == 0 {
        // "22, ... or an odd entry or share to be halved"
        if w % 2 != 0 || table.iter().flatten().any(|flow| flow % 2 != 0) {
            return Err(22);
        }
        let halved = table
            .iter()
            .map(|row| row.iter().map(|flow| flow / 2).collect())
            .collect();
        return Ok((halved, w / 2));
    }
    let y = loading(study, &question_21(study, note)?);
    // "22, j not below W, a table entry smaller than its part of j·Y"
    if j >= w {
        return Err(22);
    }
    let mut left = table.clone();
    for row in 0..table.len() {
        for l in 0..study.m {
            if table[row][l] < j * y[row][l] {
                return Err(22);
            }
            left[row][l] -= j * y[row][l];
        }
    }
    Ok((left, w - j))
}

/// Questions 14 to 16, then 20.
fn table(study: &Study, numbers: &[u32], share: u32) -> Result<Table, u8> {
    let w = Whole::from(share);
    // 14. Is the share 1 to 1,024?
    if !(1..=1_024).contains(&w) {
        return Err(14);
    }
    let table = take(study, numbers);
    // 15. Is each link's total flow at most share × T?
    if totals(study, &table).iter().any(|&s| s > w * study.total) {
        return Err(15);
    }
    // 16. Does the table conserve?
    if !conserves(study, &table, w) {
        return Err(16);
    }
    // "20, a table with flow on a link that may not carry it, after 16"; "A
    // table with lorries on a barred link is refusal 20."
    for (row, (class, s)) in study.rows().into_iter().enumerate() {
        for (l, &flow) in table[row].iter().enumerate() {
            if flow > 0 && !study.may_carry(l, class, s) {
                return Err(20);
            }
        }
    }
    Ok(table)
}

/// 12. Does the flow table hold at least p·m numbers of 32 bits? "for version 4
///     2·p·m numbers wherever document 01 says p·m"
fn question_12(study: &Study, numbers: &[u32]) -> Result<(), u8> {
    let p = study.p * if study.version == 4 { 2 } else { 1 };
    if numbers.len() < p * study.m {
        return Err(12);
    }
    Ok(())
}

/// "For pass and taking back, question 12 also wants 1 + p·n numbers there"; "in
/// 1 + 2·p·n numbers"
fn question_12_of_the_note(study: &Study, note: &[u16]) -> Result<(), u8> {
    let p = study.p * if study.version == 4 { 2 } else { 1 };
    if note.len() < 1 + p * study.n as usize {
        return Err(12);
    }
    Ok(())
}

fn u64_of(number: Whole) -> u64 {
    u64::try_from(number).unwrap()
}

fn u32_of(number: Whole) -> u32 {
    u32::try_from(number).unwrap()
}

/// "each printed with a point before its last two digits and at least one
/// digit before it"
fn with_point(number: Whole) -> String {
    format!("{}.{:02}", number / 100, number % 100)
}

/// "30 bytes a link, in link order, right-aligned, all else spaces. Columns
/// 1 to 3 hold the link, 5 to 7 the tail, 9 to 11 the head, 13 to 20 the
/// volume, 22 to 29 the time in minutes, then a line feed. Volume is
/// floor(100·S / W) and time is in hundredths".
fn page_text(study: &Study, table: &Table, w: Whole) -> String {
    let totals = totals(study, table);
    let times = times(study, &totals, w);
    let mut text = String::new();
    for (l, link) in study.links.iter().enumerate() {
        let volume = with_point(100 * totals[l] / w);
        let time = with_point(times[l]);
        let (tail, head) = (link.tail, link.head);
        text += &format!("{l:>3} {tail:>3} {head:>3} {volume:>8} {time:>8}\n");
    }
    text
}

/// The nine calls by the definitions.
pub struct Literal;

impl Calls for Literal {
    fn check(&self, file: &[u8]) -> u8 {
        study(file).err().unwrap_or(0)
    }

    fn pack(&self, file: &[u8], output: &mut [u8]) -> u8 {
        let study = match study(file) {
            Err(refusal) => return refusal,
            Ok(study) => study,
        };
        // 17. Is the output slice at least 32 + 10m + 2p + 2pn bytes?
        // "question 17 wants that version's whole packed size"
        let (n, m, p) = (study.n as usize, study.m, study.p);
        let (header, pairs) = header(study.version);
        let lengths = lengths(study.version, n, m, p);
        if output.len() < header + lengths.iter().sum::<usize>() {
            return 17;
        }
        // "writes an accepted study with no gaps, sections in order from
        // offset 32, and leaves later bytes untouched"; "Pack keeps a file's
        // version, starts the sections at the end of its header, writes the
        // new section last"; "two more pairs, packed in this order after the
        // closed bytes: lorry trips ... and m bytes"
        let mut packed = Vec::new();
        let two = |packed: &mut Vec<u8>, number: Whole| {
            packed.extend([(number % 256) as u8, (number / 256) as u8]);
        };
        for number in [study.version, study.n, m as Whole, p as Whole] {
            two(&mut packed, number);
        }
        for k in 0..pairs {
            let offset = header + lengths[..k].iter().sum::<usize>();
            for number in [offset as Whole, lengths[k] as Whole] {
                two(&mut packed, number % 65_536);
                two(&mut packed, number / 65_536);
            }
        }
        for link in &study.links {
            for number in [link.tail, link.head, link.a, link.b, link.c] {
                two(&mut packed, number);
            }
            if study.version >= 3 {
                two(&mut packed, link.q);
            }
        }
        for &s in &study.destinations {
            two(&mut packed, s);
        }
        for &trips in study.trips[..p].iter().flatten() {
            two(&mut packed, trips);
        }
        if study.version >= 2 {
            packed.extend(&study.closed);
        }
        if study.version == 4 {
            for &trips in study.trips[p..].iter().flatten() {
                two(&mut packed, trips);
            }
            packed.extend(&study.barred);
        }
        output[..packed.len()].copy_from_slice(&packed);
        0
    }

    fn start(&self, file: &[u8], numbers: &mut [u32]) -> u8 {
        let result = study(file).and_then(|study| {
            question_12(&study, numbers)?;
            give(&study, &started(&study), numbers);
            Ok(())
        });
        result.err().unwrap_or(0)
    }

    fn pass(&self, file: &[u8], numbers: &mut [u32], share: u32, note: &mut [u16]) -> PassAnswer {
        let result = study(file).and_then(|study| {
            question_12(&study, numbers)?;
            question_12_of_the_note(&study, note)?;
            let table = table(&study, numbers, share)?;
            let w = Whole::from(share);
            let moved = moved(&study, &table, w);
            // "'Finest' and a refusal leave the note unchanged."
            if let Some(moved) = &moved {
                give(&study, &moved.table, numbers);
                give_note(&study, moved, note);
            }
            Ok(PassAnswer {
                refusal: 0,
                outcome: if moved.is_some() { 1 } else { 2 },
                gap: u64_of(gap(&study, &table, w)),
                cost: u64_of(cost(&study, &table, w)),
                share: u32_of(moved.map_or(w, |moved| moved.w)),
                // "return the count for the judged table"
                over: over(&study, &table, w),
            })
        });
        result.unwrap_or_else(|refusal| PassAnswer {
            refusal,
            outcome: 0,
            gap: 0,
            cost: 0,
            share: 0,
            over: 0,
        })
    }

    fn run(&self, file: &[u8], numbers: &mut [u32], budget: u32, excess: u16) -> RunAnswer {
        let result = study(file).and_then(|study| {
            question_12(&study, numbers)?;
            // 13. Is the budget 1 to 1,024?
            if !(1..=1_024).contains(&budget) {
                return Err(13);
            }
            let (mut table, mut w) = (started(&study), 1);
            let mut judged = 0;
            loop {
                judged += 1;
                let gap = gap(&study, &table, w);
                let moved = moved(&study, &table, w);
                let ending = if gap <= Whole::from(excess) * w * study.total {
                    1
                } else if moved.is_none() {
                    2
                } else if judged == budget {
                    3
                } else {
                    Moved { table, w, .. } = moved.unwrap();
                    continue;
                };
                give(&study, &table, numbers);
                return Ok(RunAnswer {
                    refusal: 0,
                    ending,
                    judged,
                    share: u32_of(w),
                    gap: u64_of(gap),
                    cost: u64_of(cost(&study, &table, w)),
                    over: over(&study, &table, w),
                });
            }
        });
        result.unwrap_or_else(|refusal| RunAnswer {
            refusal,
            ending: 0,
            judged: 0,
            share: 0,
            gap: 0,
            cost: 0,
            over: 0,
        })
    }

    fn audit(&self, file: &[u8], numbers: &[u32], share: u32) -> AuditAnswer {
        let result = study(file).and_then(|study| {
            question_12(&study, numbers)?;
            let table = table(&study, numbers, share)?;
            let w = Whole::from(share);
            Ok(AuditAnswer {
                refusal: 0,
                gap: u64_of(gap(&study, &table, w)),
                cost: u64_of(cost(&study, &table, w)),
                over: over(&study, &table, w),
            })
        });
        result.unwrap_or_else(|refusal| AuditAnswer {
            refusal,
            gap: 0,
            cost: 0,
            over: 0,
        })
    }

    fn page(&self, file: &[u8], numbers: &[u32], share: u32, page: &mut [u8]) -> u8 {
        let result = study(file).and_then(|study| {
            question_12(&study, numbers)?;
            let table = table(&study, numbers, share)?;
            // "Turned away: 18, page slice below 30m bytes, after 16."
            if page.len() < 30 * study.m {
                return Err(18);
            }
            let text = page_text(&study, &table, Whole::from(share));
            // "No number is wider than its columns".
            assert_eq!(text.len(), 30 * study.m);
            // "Bytes after the first 30m are untouched."
            page[..30 * study.m].copy_from_slice(text.as_bytes());
            Ok(())
        });
        result.err().unwrap_or(0)
    }

    fn take_back(
        &self,
        file: &[u8],
        numbers: &mut [u32],
        share: u32,
        note: &[u16],
    ) -> TakeBackAnswer {
        let result = study(file).and_then(|study| {
            question_12(&study, numbers)?;
            question_12_of_the_note(&study, note)?;
            // "Table questions up to 20 come first."
            let table = table(&study, numbers, share)?;
            let (left, w) = taken_back(&study, &table, Whole::from(share), note)?;
            give(&study, &left, numbers);
            // "It returns the resulting share"
            Ok(TakeBackAnswer {
                refusal: 0,
                share: u32_of(w),
            })
        });
        result.unwrap_or_else(|refusal| TakeBackAnswer { refusal, share: 0 })
    }

    fn desks(&self, seats: &mut [Desk<'_>; 8], desks: u32, allowance: u32) -> DesksAnswer {
        let nothing = RunAnswer {
            refusal: 0,
            ending: 0,
            judged: 0,
            share: 0,
            gap: 0,
            cost: 0,
            over: 0,
        };
        let mut answer = DesksAnswer {
            refusal: 0,
            turns: 0,
            seats: [nothing; 8],
        };
        // "Turned away: 24, desks not 1 to 8, first of all; 25, allowance not 1
        // to 8,192, second."
        if !(1..=8).contains(&desks) {
            answer.refusal = 24;
            return answer;
        }
        if !(1..=8_192).contains(&allowance) {
            answer.refusal = 25;
            return answer;
        }
        // "if run by itself with its budget"; "A desk whose run would be refused
        // counts as ended, takes no turn and reports its own number", and judges
        // no table.
        // A desk has no more turns than the allowance, so that of the larger
        // budgets one more than that tells as much.
        let seats = &mut seats[..desks as usize];
        let alone = |desk: &Desk<'_>| {
            let mut numbers = desk.table.to_vec();
            let budget = match desk.budget {
                1..=1_024 => desk.budget.min(allowance + 1),
                _ => desk.budget,
            };
            let answer = self.run(desk.file, &mut numbers, budget, desk.excess);
            (answer, numbers)
        };
        let runs: Vec<(RunAnswer, Vec<u32>)> = seats.iter().map(alone).collect();
        // "Turns go round the unfinished desks in seat order, one judged table
        // each, until all have ended or a common allowance is used up."
        let mut taken = vec![0; runs.len()];
        let unfinished = |taken: &[u32], seat: usize| taken[seat] < runs[seat].0.judged;
        while (0..runs.len()).any(|seat| unfinished(&taken, seat)) && answer.turns < allowance {
            for seat in 0..runs.len() {
                if unfinished(&taken, seat) && answer.turns < allowance {
                    taken[seat] += 1;
                    answer.turns += 1;
                }
            }
        }
        for (seat, desk) in seats.iter_mut().enumerate() {
            let own = &mut answer.seats[seat];
            if !unfinished(&taken, seat) {
                // "Each ended desk holds what it would hold if run by itself
                // with its budget."
                *own = runs[seat].0;
                desk.table.copy_from_slice(&runs[seat].1);
            } else if taken[seat] > 0 {
                // "has the ending 'waiting' and otherwise holds what a run of
                // budget k would"
                *own = self.run(desk.file, desk.table, taken[seat], desk.excess);
                own.ending = 4;
            } else {
                // "with no turn it has its table as started, share 1, tables
                // judged, gap, cost and the count of A.4 all 0"
                own.refusal = self.start(desk.file, desk.table);
                own.ending = 4;
                own.share = 1;
            }
        }
        answer
    }
}
