//! The calls of include/aqfp.h, imported from the static library.

use crate::capacities::Capacities;
use crate::engine::Engine;
use crate::simulator::Run;

extern "C" {
    fn aqfp_map(
        source: *const u8,
        source_len: usize,
        capacity: u32,
        input_capacity: u32,
        prices: *const u8,
        prices_len: usize,
        mapped: *mut u8,
        mapped_len: usize,
        answer: *mut u8,
    ) -> u32;
    fn aqfp_count(
        source: *const u8,
        source_len: usize,
        capacity: u32,
        input_capacity: u32,
        record: u32,
        answer: *mut u8,
    ) -> u32;
    fn aqfp_count_nets(
        source: *const u8,
        source_len: usize,
        capacity: u32,
        input_capacity: u32,
        records: *const u8,
        records_len: usize,
        counts: *mut u8,
        counts_len: usize,
        answer: *mut u8,
    ) -> u32;
    fn aqfp_verify(
        source: *const u8,
        source_len: usize,
        capacity: u32,
        input_capacity: u32,
        mapped: *const u8,
        mapped_len: usize,
        answer: *mut u8,
    ) -> u32;
    fn aqfp_evaluate(
        source: *const u8,
        source_len: usize,
        row: *const u8,
        row_len: usize,
        values: *mut u8,
        values_len: usize,
        answer: *mut u8,
    ) -> u32;
    fn aqfp_run(
        source: *const u8,
        source_len: usize,
        capacity: u32,
        input_capacity: u32,
        mapped: *const u8,
        mapped_len: usize,
        row_count: u32,
        rows: *const u8,
        rows_len: usize,
        state: *mut u8,
        state_len: usize,
        outputs: *mut u8,
        outputs_len: usize,
        answer: *mut u8,
    ) -> u32;
    fn aqfp_step(
        source: *const u8,
        source_len: usize,
        capacity: u32,
        input_capacity: u32,
        mapped: *const u8,
        mapped_len: usize,
        row: *const u8,
        row_len: usize,
        state: *mut u8,
        state_len: usize,
        answer: *mut u8,
    ) -> u32;
    fn aqfp_levels(
        source: *const u8,
        source_len: usize,
        capacity: u32,
        levelled: *mut u8,
        levelled_len: usize,
        answer: *mut u8,
    ) -> u32;
    fn aqfp_strip(
        capacity: u32,
        input_capacity: u32,
        mapped: *const u8,
        mapped_len: usize,
        source: *mut u8,
        source_len: usize,
        answer: *mut u8,
    ) -> u32;
}

/// The numbers of an answer area; the call's return value must be the first of them.
fn numbers<const A: usize>(bytes: &[u8], returned: u32) -> [u32; A] {
    let mut numbers = [0; A];
    for (number, four) in numbers.iter_mut().zip(bytes.chunks_exact(4)) {
        *number = u32::from_le_bytes([four[0], four[1], four[2], four[3]]);
    }
    assert_eq!(returned, numbers[0], "the value returned is not the answer's first number");
    numbers
}

// SAFETY of the calls below: each area is handed with its own length, the borrow rules keep
// written areas apart from all others, and the answer has the length that the interface states.
// Answer areas start out filled, so that a byte left unwritten shows.

fn map(source: &[u8], capacities: Capacities, prices: &[u8], mapped: &mut [u8]) -> [u32; 7] {
    let mut answer = [0xA5; 28];
    let returned = unsafe {
        aqfp_map(
            source.as_ptr(),
            source.len(),
            capacities.buffer,
            capacities.input,
            prices.as_ptr(),
            prices.len(),
            mapped.as_mut_ptr(),
            mapped.len(),
            answer.as_mut_ptr(),
        )
    };
    numbers(&answer, returned)
}

fn count(source: &[u8], capacities: Capacities, record: u32) -> [u32; 3] {
    let mut answer = [0xA5; 12];
    let returned = unsafe {
        aqfp_count(
            source.as_ptr(),
            source.len(),
            capacities.buffer,
            capacities.input,
            record,
            answer.as_mut_ptr(),
        )
    };
    numbers(&answer, returned)
}

fn count_nets(
    source: &[u8],
    capacities: Capacities,
    records: &[u8],
    counts: &mut [u8],
) -> [u32; 2] {
    let mut answer = [0xA5; 8];
    let returned = unsafe {
        aqfp_count_nets(
            source.as_ptr(),
            source.len(),
            capacities.buffer,
            capacities.input,
            records.as_ptr(),
            records.len(),
            counts.as_mut_ptr(),
            counts.len(),
            answer.as_mut_ptr(),
        )
    };
    numbers(&answer, returned)
}

fn verify(source: &[u8], capacities: Capacities, mapped: &[u8]) -> [u32; 3] {
    let mut answer = [0xA5; 12];
    let returned = unsafe {
        aqfp_verify(
            source.as_ptr(),
            source.len(),
            capacities.buffer,
            capacities.input,
            mapped.as_ptr(),
            mapped.len(),
            answer.as_mut_ptr(),
        )
    };
    numbers(&answer, returned)
}

fn evaluate(source: &[u8], row: &[u8], values: &mut [u8]) -> [u32; 2] {
    let mut answer = [0xA5; 8];
    let returned = unsafe {
        aqfp_evaluate(
            source.as_ptr(),
            source.len(),
            row.as_ptr(),
            row.len(),
            values.as_mut_ptr(),
            values.len(),
            answer.as_mut_ptr(),
        )
    };
    numbers(&answer, returned)
}

fn run(source: &[u8], capacities: Capacities, mapped: &[u8], areas: Run) -> [u32; 2] {
    let mut answer = [0xA5; 8];
    let returned = unsafe {
        aqfp_run(
            source.as_ptr(),
            source.len(),
            capacities.buffer,
            capacities.input,
            mapped.as_ptr(),
            mapped.len(),
            areas.row_count,
            areas.rows.as_ptr(),
            areas.rows.len(),
            areas.state.as_mut_ptr(),
            areas.state.len(),
            areas.outputs.as_mut_ptr(),
            areas.outputs.len(),
            answer.as_mut_ptr(),
        )
    };
    numbers(&answer, returned)
}

fn step(
    source: &[u8],
    capacities: Capacities,
    mapped: &[u8],
    row: &[u8],
    state: &mut [u8],
) -> [u32; 2] {
    let mut answer = [0xA5; 8];
    let returned = unsafe {
        aqfp_step(
            source.as_ptr(),
            source.len(),
            capacities.buffer,
            capacities.input,
            mapped.as_ptr(),
            mapped.len(),
            row.as_ptr(),
            row.len(),
            state.as_mut_ptr(),
            state.len(),
            answer.as_mut_ptr(),
        )
    };
    numbers(&answer, returned)
}

fn levels(source: &[u8], capacity: u32, levelled: &mut [u8]) -> [u32; 2] {
    let mut answer = [0xA5; 8];
    let returned = unsafe {
        aqfp_levels(
            source.as_ptr(),
            source.len(),
            capacity,
            levelled.as_mut_ptr(),
            levelled.len(),
            answer.as_mut_ptr(),
        )
    };
    numbers(&answer, returned)
}

fn strip(capacities: Capacities, mapped: &[u8], source: &mut [u8]) -> [u32; 3] {
    let mut answer = [0xA5; 12];
    let returned = unsafe {
        aqfp_strip(
            capacities.buffer,
            capacities.input,
            mapped.as_ptr(),
            mapped.len(),
            source.as_mut_ptr(),
            source.len(),
            answer.as_mut_ptr(),
        )
    };
    numbers(&answer, returned)
}

pub const LINKED: Engine =
    Engine { map, count, count_nets, verify, evaluate, run, step, levels, strip };
