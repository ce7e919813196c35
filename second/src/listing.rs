//! What the programs `assign` and `page` print.

use std::fmt::Write;

use crate::calls::{REACHED, RUN_FINEST, RunAnswer, page, run};
use crate::columns::LINE_BYTES;
use crate::format::{MOST_CLASSES, MOST_DESTINATIONS, MOST_LINKS, u16_at};
use crate::network::Study;
use crate::questions::Question;

/// The listing for a whole standard input: u16 budget, u16 excess, a study.
pub fn listing(input: &[u8]) -> Vec<u8> {
    printed(list(input).map(String::into_bytes))
}

/// The page for a whole standard input, read as for the listing: that of the
/// run's last judged table.
pub fn page_listing(input: &[u8]) -> Vec<u8> {
    printed(write_page(input))
}

/// The bytes to print, or the line that stands for a refusal's number.
fn printed(result: Result<Vec<u8>, u8>) -> Vec<u8> {
    result.unwrap_or_else(|refusal| format!("refused {refusal}\n").into_bytes())
}

/// Does the run that the input asks for. Hands back the study's bytes, the
/// table that the run leaves and its answer, or the number of the refusal.
fn run_input(input: &[u8]) -> Result<(&[u8], Vec<u32>, RunAnswer), u8> {
    if input.len() < 4 {
        return Err(Question::FileLength.number());
    }
    let (budget, excess) = (u16_at(input, 0), u16_at(input, 2));
    let file = &input[4..];

    let mut table = vec![0; MOST_CLASSES * MOST_DESTINATIONS * MOST_LINKS];
    let answer = run(file, &mut table, u32::from(budget), excess);
    if answer.refusal != 0 {
        return Err(answer.refusal);
    }
    Ok((file, table, answer))
}

/// Writes the listing, or hands back the number of the refusal.
fn list(input: &[u8]) -> Result<String, u8> {
    let (file, table, answer) = run_input(input)?;
    let ending = match answer.ending {
        REACHED => "reached",
        RUN_FINEST => "finest",
        _ => "spent",
    };
    // Writing to a string cannot fail.
    let mut text = String::new();
    writeln!(text, "{ending}").unwrap();
    writeln!(text, "judged {}", answer.judged).unwrap();
    writeln!(text, "share {}", answer.share).unwrap();
    writeln!(text, "gap {}", answer.gap).unwrap();
    writeln!(text, "cost {}", answer.cost).unwrap();
    writeln!(text, "over {}", answer.over).unwrap();

    let study = Study::read(file).map_err(Question::number)?;
    for link in 0..study.links {
        let total: u64 = table[..study.table_length()]
            .chunks_exact(study.links)
            .map(|row| u64::from(row[link]))
            .sum();
        let time = study.roads[link].time(total, u64::from(answer.share));
        writeln!(text, "link {link} {total} {time}").unwrap();
    }
    Ok(text)
}

/// Writes the page, or hands back the number of the refusal.
fn write_page(input: &[u8]) -> Result<Vec<u8>, u8> {
    let (file, table, answer) = run_input(input)?;
    let study = Study::read(file).map_err(Question::number)?;
    let mut bytes = vec![0; LINE_BYTES * study.links];
    match page(file, &table, answer.share, &mut bytes) {
        0 => Ok(bytes),
        refusal => Err(refusal),
    }
}
