//! The verifier (specification 4.3): checks 1, 26, 2 to 7, then 11 to 17.

use crate::capacities::Capacities;
use crate::record::*;
use crate::refusal::{refuse, Refusal};
use crate::source::{check_source, number_of};

/// Check 11: the mapped netlist's records.
fn check_length(n: usize, bytes: &[u8]) -> Result<Vec<Record>, Refusal> {
    let m = bytes.len() / WIDTH;
    if !bytes.len().is_multiple_of(WIDTH) || m < n || m > MAX_MAPPED {
        return refuse(11, 0);
    }
    Ok(decode(bytes))
}

/// Check 12: the record with its used slots set to the source's is the source's.
fn differs(source: &Record, mapped: &Record) -> bool {
    let mut kept = *mapped;
    let used = used_slots(source.kind);
    kept.slots[..used].copy_from_slice(source.fanins());
    kept != *source
}

/// Check 13.
fn no_buffer(record: &Record) -> bool {
    *record != Record::buffer(record.level, record.slots[0]) || record.level > MAX_LEVEL
}

/// Check 14: a used slot names no record or an output.
fn names_nothing(mapped: &[Record], record: &Record) -> bool {
    record
        .fanins()
        .iter()
        .any(|&fanin| mapped.get(usize::from(fanin)).is_none_or(|fanin| fanin.kind == OUTPUT))
}

/// Check 15: a fanin not one level lower.
fn unbalanced(mapped: &[Record], record: &Record) -> bool {
    let below = u32::from(record.level);
    record.fanins().iter().any(|&fanin| u32::from(mapped[usize::from(fanin)].level) + 1 != below)
}

/// Checks 12 to 15 of record k.
fn check_record(source: &[Record], mapped: &[Record], k: usize) -> Result<(), Refusal> {
    if k < source.len() && differs(&source[k], &mapped[k]) {
        return refuse(12, k);
    }
    if k >= source.len() && no_buffer(&mapped[k]) {
        return refuse(13, k);
    }
    if names_nothing(mapped, &mapped[k]) {
        return refuse(14, k);
    }
    if unbalanced(mapped, &mapped[k]) {
        return refuse(15, k);
    }
    Ok(())
}

/// The gate or input where a fanin, traced back through buffers, ends.
pub fn trace(mapped: &[Record], fanin: u16) -> u16 {
    let mut at = fanin;
    while mapped[usize::from(at)].kind == BUFFER {
        at = mapped[usize::from(at)].slots[0];
    }
    at
}

/// Check 16.
fn check_traces(source: &[Record], mapped: &[Record]) -> Result<(), Refusal> {
    for (k, record) in source.iter().enumerate() {
        let traced = mapped[k].fanins().iter().map(|&fanin| trace(mapped, fanin));
        if !traced.eq(record.fanins().iter().copied()) {
            return refuse(16, k);
        }
    }
    Ok(())
}

/// Check 17.
fn check_feeding(mapped: &[Record], capacities: Capacities) -> Result<(), Refusal> {
    let mut feeds = vec![0; mapped.len()];
    for fanin in mapped.iter().flat_map(|record| record.fanins()) {
        feeds[usize::from(*fanin)] += 1;
    }
    for (k, record) in mapped.iter().enumerate() {
        if feeds[k] > capacities.of(record.kind) {
            return refuse(17, k);
        }
    }
    Ok(())
}

/// Both netlists' records, if the verifier accepts them.
pub fn check(
    source: &[u8],
    capacities: Capacities,
    mapped: &[u8],
) -> Result<(Vec<Record>, Vec<Record>), Refusal> {
    capacities.check()?;
    let source = check_source(source)?;
    let mapped = check_length(source.len(), mapped)?;
    for k in 0..mapped.len() {
        check_record(&source, &mapped, k)?;
    }
    check_traces(&source, &mapped)?;
    check_feeding(&mapped, capacities)?;
    Ok((source, mapped))
}

/// The number of buffers of an accepted mapped netlist.
pub fn verify(source: &[u8], capacities: Capacities, mapped: &[u8]) -> Result<u32, Refusal> {
    let (_, mapped) = check(source, capacities, mapped)?;
    Ok(number_of(BUFFER, &mapped) as u32)
}
