//! The bytes of a study file.
//!
//! This layer finds the header's numbers and the sections, and puts questions
//! 1 to 5. What the sections mean is not its business.

use crate::questions::Question;

/// Bytes in the header of version 1, and in the shortest study file.
pub const HEADER: usize = 32;
/// Bytes in the longest study file.
pub const LONGEST_FILE: usize = 65_536;
/// The first version.
pub const VERSION: u16 = 1;
/// The version with closed nodes.
pub const CLOSED_VERSION: u16 = 2;
/// The version with a power for each link.
pub const POWER_VERSION: u16 = 3;
/// The version with lorries.
pub const LORRY_VERSION: u16 = 4;
/// Bytes of one link in versions 1 and 2.
pub const LINK_BYTES: usize = 10;
/// Bytes of one link in versions 3 and 4.
pub const POWER_LINK_BYTES: usize = 12;
/// Sections of the version that has the most.
pub const MOST_SECTIONS: usize = 6;

/// The largest number of nodes.
pub const MOST_NODES: usize = 128;
/// The largest number of links.
pub const MOST_LINKS: usize = 512;
/// The largest number of destinations.
pub const MOST_DESTINATIONS: usize = 32;
/// The largest number of classes: cars and lorries.
pub const MOST_CLASSES: usize = 2;

/// What differs between the versions of a study file.
#[derive(Clone, Copy, Debug, PartialEq, Eq)]
pub struct Layout {
    /// The version's number.
    pub version: u16,
    /// Bytes in the header.
    pub header: usize,
    /// Bytes of one link.
    pub link_bytes: usize,
    /// Number of sections. They are, in this order: links, destinations,
    /// trips, closed, lorry trips, barred.
    pub sections: usize,
    /// Number of classes, each with trips of its own: cars, and lorries after
    /// them.
    pub classes: usize,
}

/// All versions there are.
#[rustfmt::skip]
pub static LAYOUTS: [Layout; 4] = [
    Layout { version: VERSION,        header: HEADER, link_bytes: LINK_BYTES,       sections: 3, classes: 1 },
    Layout { version: CLOSED_VERSION, header: 40,     link_bytes: LINK_BYTES,       sections: 4, classes: 1 },
    Layout { version: POWER_VERSION,  header: 40,     link_bytes: POWER_LINK_BYTES, sections: 4, classes: 1 },
    Layout { version: LORRY_VERSION,  header: 56,     link_bytes: POWER_LINK_BYTES, sections: 6, classes: 2 },
];

impl Layout {
    /// The layout of a version, if there is that version.
    #[inline]
    pub fn of(version: u16) -> Option<&'static Layout> {
        LAYOUTS.iter().find(|layout| layout.version == version)
    }

    /// The lengths of the sections; only the first [`Layout::sections`] count.
    #[inline]
    pub fn lengths(
        &self,
        nodes: usize,
        links: usize,
        destinations: usize,
    ) -> [usize; MOST_SECTIONS] {
        [
            self.link_bytes * links,
            2 * destinations,
            2 * destinations * nodes,
            nodes,
            2 * destinations * nodes,
            links,
        ]
    }

    /// Bytes of a study of this version without gaps.
    #[inline]
    pub fn packed_length(&self, nodes: usize, links: usize, destinations: usize) -> usize {
        let lengths = self.lengths(nodes, links, destinations);
        self.header + lengths[..self.sections].iter().sum::<usize>()
    }
}

/// The counts of a file and its sections, as parts of the caller's bytes.
#[derive(Clone, Copy, Debug, PartialEq, Eq)]
pub struct Sections<'a> {
    /// What is special to the file's version.
    pub layout: &'static Layout,
    /// Number of nodes, n.
    pub nodes: usize,
    /// Number of links, m.
    pub links: usize,
    /// Number of destinations, p.
    pub destinations: usize,
    /// The links, [`Layout::link_bytes`] each.
    pub link_part: &'a [u8],
    /// The destinations, 2 bytes each.
    pub destination_part: &'a [u8],
    /// The trips, 2 bytes for each destination and node.
    pub trip_part: &'a [u8],
    /// The closed bytes, one for each node; none in version 1.
    pub closed_part: &'a [u8],
    /// The lorry trips, laid out as the trips; none before version 4.
    pub lorry_part: &'a [u8],
    /// The barred bytes, one for each link; none before version 4.
    pub barred_part: &'a [u8],
}

/// Reads the two bytes at `place`.
#[inline]
pub fn u16_at(bytes: &[u8], place: usize) -> u16 {
    u16::from_le_bytes([bytes[place], bytes[place + 1]])
}

/// Reads the four bytes at `place`.
#[inline]
pub fn u32_at(bytes: &[u8], place: usize) -> u32 {
    u32::from(u16_at(bytes, place)) | u32::from(u16_at(bytes, place + 2)) << 16
}

/// All numbers of a section, two bytes each.
#[inline]
pub fn numbers(part: &[u8]) -> impl Iterator<Item = u16> {
    let (pairs, _) = part.as_chunks();
    pairs.iter().map(|&pair| u16::from_le_bytes(pair))
}

/// Bytes of a study of version 1 without gaps.
#[inline]
pub fn packed_length(nodes: usize, links: usize, destinations: usize) -> usize {
    LAYOUTS[0].packed_length(nodes, links, destinations)
}

impl<'a> Sections<'a> {
    /// Puts questions 1 to 5 and finds the sections.
    pub fn find(file: &'a [u8]) -> Result<Self, Question> {
        Question::FileLength.ask((HEADER..=LONGEST_FILE).contains(&file.len()))?;
        let layout = Layout::of(u16_at(file, 0)).ok_or(Question::Version)?;

        let nodes = usize::from(u16_at(file, 2));
        let links = usize::from(u16_at(file, 4));
        let destinations = usize::from(u16_at(file, 6));
        Question::Counts.ask(
            (2..=MOST_NODES).contains(&nodes)
                && (1..=MOST_LINKS).contains(&links)
                && (1..=MOST_DESTINATIONS).contains(&destinations)
                && destinations <= nodes,
        )?;

        let lengths = layout.lengths(nodes, links, destinations);
        let parts = find_parts(file, layout, &lengths)?;
        Ok(Sections {
            layout,
            nodes,
            links,
            destinations,
            link_part: parts[0],
            destination_part: parts[1],
            trip_part: parts[2],
            closed_part: parts[3],
            lorry_part: parts[4],
            barred_part: parts[5],
        })
    }

    /// Length of this study without gaps.
    #[inline]
    pub fn packed_length(&self) -> usize {
        self.layout
            .packed_length(self.nodes, self.links, self.destinations)
    }

    /// Writes this study without gaps over the first bytes of `output`, which
    /// holds at least [`Sections::packed_length`] of them. The version stays
    /// the same.
    pub fn write_packed(&self, output: &mut [u8]) {
        let (header, mut rest) = output.split_at_mut(self.layout.header);
        let counts = [
            self.layout.version,
            self.nodes as u16,
            self.links as u16,
            self.destinations as u16,
        ];
        for (place, count) in counts.into_iter().enumerate() {
            header[2 * place..2 * place + 2].copy_from_slice(&count.to_le_bytes());
        }
        let mut offset = header.len();
        let parts = [
            self.link_part,
            self.destination_part,
            self.trip_part,
            self.closed_part,
            self.lorry_part,
            self.barred_part,
        ];
        for (section, part) in parts.into_iter().take(self.layout.sections).enumerate() {
            let pair = &mut header[8 + 8 * section..16 + 8 * section];
            pair[..4].copy_from_slice(&(offset as u32).to_le_bytes());
            pair[4..].copy_from_slice(&(part.len() as u32).to_le_bytes());
            let (here, after) = rest.split_at_mut(part.len());
            here.copy_from_slice(part);
            rest = after;
            offset += part.len();
        }
    }
}

/// Puts questions 4 and 5 to a file of at least 32 bytes and finds its
/// sections, which are to have these lengths. Sections that the version does
/// not have are empty.
#[inline]
fn find_parts<'a>(
    file: &'a [u8],
    layout: &Layout,
    lengths: &[usize; MOST_SECTIONS],
) -> Result<[&'a [u8]; MOST_SECTIONS], Question> {
    // A file shorter than its header has no place for its sections.
    Question::Offsets.ask(file.len() >= layout.header)?;
    // Offsets and lengths are any numbers of 32 bits here, so their sums are
    // taken in 64.
    let mut offsets = [0; MOST_SECTIONS];
    let mut end = layout.header as u64; // of what lies before the section
    let (mut follow, mut fit) = (true, true);
    for section in 0..layout.sections {
        let offset = u64::from(u32_at(file, 8 + 8 * section));
        let length = u64::from(u32_at(file, 12 + 8 * section));
        follow &= end <= offset;
        fit &= length == lengths[section] as u64;
        end = offset + length;
        offsets[section] = offset as usize;
    }
    Question::Offsets.ask(follow && end <= file.len() as u64)?;
    Question::Lengths.ask(fit)?;

    let mut parts: [&[u8]; MOST_SECTIONS] = [&[]; MOST_SECTIONS];
    for section in 0..layout.sections {
        parts[section] = &file[offsets[section]..][..lengths[section]];
    }
    Ok(parts)
}
