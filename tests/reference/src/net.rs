//! Specification 2.1, 2.4: the net of one driver and its fewest buffers; the count of one net and
//! of a list of nets.

use std::collections::BTreeMap;

use crate::capacities::Capacities;
use crate::record::*;
use crate::refusal::{refuse, Refusal};
use crate::source::check_source;

/// One used slot that names the driver.
#[derive(Clone, Copy, PartialEq, Eq, Debug)]
pub struct Sink {
    pub record: usize,
    pub slot: usize,
    pub distance: usize,
}

/// The count of one net.
#[derive(Clone, Copy, PartialEq, Eq, Debug)]
pub enum Count {
    Fewest(u32),
    NoTree,
    Refused(Refusal),
}

/// The sinks of a driver, by record and slot.
pub fn sinks(source: &[Record], driver: usize) -> Vec<Sink> {
    let mut found = Vec::new();
    for (k, record) in source.iter().enumerate() {
        for (slot, &fanin) in record.fanins().iter().enumerate() {
            if usize::from(fanin) == driver {
                let distance = usize::from(record.level - source[driver].level);
                found.push(Sink { record: k, slot, distance });
            }
        }
    }
    found
}

/// The distances of a driver's sinks.
pub fn distances(source: &[Record], driver: usize) -> Vec<usize> {
    sinks(source, driver).iter().map(|sink| sink.distance).collect()
}

/// The buffers of the mapper's tree at each distance: entry d for distance d, entry 0 unused.
/// Nothing if more nodes are left at distance 1 than the driver may feed.
pub fn buffers_by_distance(distances: &[usize], s: usize, driver: usize) -> Option<Vec<usize>> {
    let largest = distances.iter().copied().max().unwrap_or(0);
    let mut buffers = vec![0; largest + 1];
    for d in (1..=largest).rev() {
        let nodes = buffers[d] + distances.iter().filter(|&&distance| distance == d).count();
        if d > 1 {
            buffers[d - 1] = nodes.div_ceil(s);
        } else if nodes > driver {
            return None;
        }
    }
    Some(buffers)
}

/// The fewest buffers of a net whose driver may feed so many slots, or nothing if it has no tree.
pub fn fewest(distances: &[usize], s: usize, driver: usize) -> Option<usize> {
    buffers_by_distance(distances, s, driver).map(|buffers| buffers.iter().sum())
}

/// The fewest buffers of the net of one driver of a source.
pub fn fewest_of(source: &[Record], driver: usize, capacities: Capacities) -> Option<usize> {
    let most = capacities.of(source[driver].kind);
    fewest(&distances(source, driver), capacities.s(), most)
}

/// The fewest buffers in one formula: at distance d they are the sum over the farther sinks of
/// s to the power of minus their distance from d, rounded up. For distances up to 30.
pub fn fewest_by_formula(distances: &[usize], s: usize, driver: usize) -> Option<usize> {
    let largest = distances.iter().copied().max().unwrap_or(0);
    let at = |d: usize| -> usize {
        let unit = (s as u128).pow((largest - d) as u32);
        let weight: u128 = (distances.iter().filter(|&&distance| distance > d))
            .map(|&distance| unit / (s as u128).pow((distance - d) as u32))
            .sum();
        weight.div_ceil(unit) as usize
    };
    let near = distances.iter().filter(|&&distance| distance == 1).count();
    if largest > 0 && near + at(1) > driver {
        return None;
    }
    Some((1..largest).map(at).sum())
}

/// The count of one net: checks 1, 26, 2 to 7, then 20.
pub fn count(source: &[u8], capacities: Capacities, record: u32) -> Count {
    match count_or_refuse(source, capacities, record) {
        Ok(Some(buffers)) => Count::Fewest(buffers as u32),
        Ok(None) => Count::NoTree,
        Err(refusal) => Count::Refused(refusal),
    }
}

fn count_or_refuse(
    bytes: &[u8],
    capacities: Capacities,
    record: u32,
) -> Result<Option<usize>, Refusal> {
    capacities.check()?;
    let source = check_source(bytes)?;
    let driver = record as usize;
    if !names_driver(&source, driver) {
        return refuse(20, driver);
    }
    Ok(fewest_of(&source, driver, capacities))
}

/// Whether an index is neither absent nor an output's.
fn names_driver(source: &[Record], index: usize) -> bool {
    index < source.len() && source[index].is_driver()
}

/// The indices that a list holds, two bytes each.
fn listed(list: &[u8]) -> Vec<usize> {
    list.chunks_exact(2).map(|two| u16::from_le_bytes([two[0], two[1]]).into()).collect()
}

/// The fewest buffers of each net of a list, nothing where there is no tree: checks 1, 26, 2 to
/// 7, then 21, then 20 at a position of the list.
pub fn count_nets(
    bytes: &[u8],
    capacities: Capacities,
    list: &[u8],
    counts_len: usize,
) -> Result<Vec<Option<usize>>, Refusal> {
    capacities.check()?;
    let source = check_source(bytes)?;
    let odd = list.len() % 2 == 1;
    if odd || list.len() / 2 > MAX_LISTED || counts_len != 2 * list.len() {
        return refuse(21, 0);
    }
    let drivers = listed(list);
    if let Some(position) = drivers.iter().position(|&k| !names_driver(&source, k)) {
        return refuse(20, position);
    }
    let mut counted = BTreeMap::new();
    let mut count =
        |k: usize| *counted.entry(k).or_insert_with(|| fewest_of(&source, k, capacities));
    Ok(drivers.iter().map(|&k| count(k)).collect())
}
