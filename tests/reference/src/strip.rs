//! Specification 4.11: the source of a mapped netlist.

use crate::capacities::Capacities;
use crate::record::*;
use crate::refusal::{refuse, Refusal};
use crate::source::number_of;
use crate::verifier::verify;

/// The record at which a fanin, traced back through buffers, ends. Check 15 lets each step go one
/// level down, so a trace that takes more steps than there are levels is none of a legal netlist.
fn trace(mapped: &[Record], fanin: u16) -> Option<u16> {
    let mut at = fanin;
    for _ in 0..=MAX_LEVEL {
        let record = mapped.get(usize::from(at))?;
        if record.kind != BUFFER {
            return Some(at);
        }
        at = record.slots[0];
    }
    None
}

/// The record with each used slot at the end of its trace.
fn traced(mapped: &[Record], record: &Record) -> Option<Record> {
    let drivers: Option<Vec<u16>> =
        record.fanins().iter().map(|&fanin| trace(mapped, fanin)).collect();
    let mut source = *record;
    source.slots[..used_slots(record.kind)].copy_from_slice(&drivers?);
    Some(source)
}

/// The only records that can be a source of the mapped ones. A source has no buffers (4), and what
/// is behind its records in the mapped netlist is buffers (12, 13), so N is the number of all
/// others. Its records are the mapped ones outside their used slots (12), and these name the ends
/// of the traces (16).
fn only_source(mapped: &[Record]) -> Option<Vec<Record>> {
    let n = mapped.len() - number_of(BUFFER, mapped);
    mapped[..n].iter().map(|record| traced(mapped, record)).collect()
}

/// Checks 1, 26 and 24: the source for which the verifier accepts the mapped netlist.
pub fn source_of(capacities: Capacities, mapped: &[u8]) -> Result<Vec<u8>, Refusal> {
    capacities.check()?;
    let source = only_source(&decode(mapped)).map(|records| encode(&records));
    match source {
        Some(source) if verify(&source, capacities, mapped).is_ok() => Ok(source),
        _ => refuse(24, 0),
    }
}

/// Stripping: the number of records of the source, with the area written.
pub fn strip(capacities: Capacities, mapped: &[u8], area: &mut [u8]) -> Result<u32, Refusal> {
    let source = source_of(capacities, mapped)?;
    if area.len() < source.len() {
        return refuse(25, 0);
    }
    area[..source.len()].copy_from_slice(&source);
    Ok((source.len() / WIDTH) as u32)
}
