//! Specification 2.7, 4.10: the least levels of a source, and the copy of it that has them.

use crate::capacities::check_capacity;
use crate::net::fewest;
use crate::record::*;
use crate::refusal::{refuse, Refusal};
use crate::source::{check_source, check_unlevelled, indices_of};

/// The least h for which s to the power h is at least n.
fn height(n: usize, s: usize) -> u32 {
    (0..).find(|&h| s.pow(h) >= n).expect("s is at least 2")
}

/// The number of sinks of each record: the used slots that name it.
fn sink_numbers(source: &[Record]) -> Vec<usize> {
    let mut numbers = vec![0; source.len()];
    for &fanin in source.iter().flat_map(Record::fanins) {
        numbers[usize::from(fanin)] += 1;
    }
    numbers
}

/// The least level of each record of a source that passes 2 to 6, whatever it comes to.
pub fn least_levels(source: &[Record], s: usize) -> Vec<u32> {
    let sinks = sink_numbers(source);
    let mut levels: Vec<u32> = Vec::new();
    for record in source {
        let least = record.fanins().iter().map(|&fanin| {
            let driver = usize::from(fanin);
            levels[driver] + 1 + height(sinks[driver], s)
        });
        let least = least.max().unwrap_or(0);
        levels.push(least);
    }
    let outputs = indices_of(OUTPUT, source);
    let highest = outputs.iter().map(|&k| levels[k]).max().unwrap_or(0);
    for k in outputs {
        levels[k] = highest;
    }
    levels
}

/// Least levels: checks 1 to 6, 22 and 23, then the area is written.
pub fn write(source: &[u8], capacity: u32, area: &mut [u8]) -> Result<(), Refusal> {
    let s = check_capacity(capacity)?;
    let mut records = check_unlevelled(source)?;
    let levels = least_levels(&records, s);
    if let Some(k) = levels.iter().position(|&level| level > u32::from(MAX_LEVEL)) {
        return refuse(22, k);
    }
    if area.len() != source.len() {
        return refuse(23, 0);
    }
    for (record, level) in records.iter_mut().zip(levels) {
        record.level = level as u16;
    }
    area.copy_from_slice(&encode(&records));
    Ok(())
}

/// Whether none of 2 to 8 refuses a source, with inputs that feed one slot and so with any others.
pub fn passes(source: &[u8], s: usize) -> bool {
    let Ok(records) = check_source(source) else {
        return false;
    };
    let mut nets = vec![Vec::new(); records.len()];
    for record in &records {
        for &fanin in record.fanins() {
            let driver = usize::from(fanin);
            nets[driver].push(usize::from(record.level - records[driver].level));
        }
    }
    nets.iter().all(|net| fewest(net, s, 1).is_some())
}
