//! The program `sheet` (specification 7.2): what it prints of the three files in its working
//! directory.

use std::fmt::Display;

use crate::capacities::Capacities;
use crate::record::*;
use crate::refusal::{refuse, Refusal};
use crate::source::{check_source, number_of};
use crate::verifier;

/// The most bytes that are read of a source: one record more than it may have.
pub const SOURCE_BYTES: usize = WIDTH * (MAX_SOURCE + 1);
/// A mapped netlist of more bytes is refused by 11.
pub const MAPPED_BYTES: usize = 60_000;

/// Checks 1, 26, 2 to 7 and 11 to 17, with this program's limit in 11: the mapped netlist's records.
fn check(source: &[u8], capacities: Capacities, mapped: &[u8]) -> Result<Vec<Record>, Refusal> {
    if mapped.len() > MAPPED_BYTES {
        capacities.check()?;
        check_source(source)?;
        return refuse(11, 0);
    }
    let (_, records) = verifier::check(source, capacities, mapped)?;
    Ok(records)
}

/// A line: its first word, then how many of the records are inputs, gates, buffers and outputs.
fn line(first: impl Display, records: &[Record]) -> String {
    let inputs = number_of(INPUT, records);
    let gates = records.iter().filter(|record| record.is_gate()).count();
    let buffers = number_of(BUFFER, records);
    let outputs = number_of(OUTPUT, records);
    format!("{first} {inputs} {gates} {buffers} {outputs}\n")
}

/// A line for each level up to the highest, then the totals.
pub fn lines(records: &[Record]) -> String {
    let levels = records.iter().map(|record| record.level + 1).max().unwrap_or(0);
    let mut text = String::new();
    for level in 0..levels {
        let here = records.iter().copied().filter(|record| record.level == level);
        text += &line(level, &here.collect::<Vec<Record>>());
    }
    text + &line("sum", records)
}

/// The capacities that the first bytes of a file hold: s, then b with its low byte first. A byte that
/// is missing counts as 0.
pub fn capacities_of(bytes: &[u8]) -> Capacities {
    let byte = |at: usize| bytes.get(at).map_or(0, |&byte| u32::from(byte));
    Capacities::new(byte(0), byte(1) + 256 * byte(2))
}

/// What is printed for the whole contents of `s`, `source` and `mapped`; a file that is missing or
/// cannot be read has none.
pub fn sheet(s: &[u8], source: &[u8], mapped: &[u8]) -> String {
    let capacities = capacities_of(s);
    let source = &source[..source.len().min(SOURCE_BYTES)];
    match check(source, capacities, mapped) {
        Ok(records) => lines(&records),
        Err(Refusal { number, place }) => format!("{number} {place}\n"),
    }
}
