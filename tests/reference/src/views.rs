//! The record view and the block view. Lengths count their whole records only.

use crate::capacities::Capacities;
use crate::mapper::mapping;
use crate::record::*;

/// Record k: from the source below N, from the mapped netlist above; empty from M on.
pub fn record_view<'a>(source: &'a [u8], mapped: &'a [u8], k: usize) -> &'a [u8] {
    let n = source.len() / WIDTH;
    let m = mapped.len() / WIDTH;
    if k >= m {
        return &[];
    }
    let area = if k < n { source } else { mapped };
    &area[WIDTH * k..WIDTH * (k + 1)]
}

/// The block of one driver's buffers, by the mapper's order for that source and these
/// capacities.
pub fn block_view<'a>(
    source: &[u8],
    capacities: Capacities,
    mapped: &'a [u8],
    driver: usize,
) -> &'a [u8] {
    let Ok(mapping) = mapping(source, capacities) else {
        return &[];
    };
    if driver + 1 >= mapping.starts.len() || !mapping.records[driver].is_driver() {
        return &[];
    }
    let (from, to) = (mapping.starts[driver], mapping.starts[driver + 1]);
    if to > mapped.len() / WIDTH {
        return &[];
    }
    &mapped[WIDTH * from..WIDTH * to]
}
