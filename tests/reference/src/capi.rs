//! The calls of include/aqfp.h over the plain implementation, for C hosts.
//!
//! Each area is a pointer and a length as the header says; a null pointer may stand for an empty
//! area.

use crate::calls;
use crate::capacities::Capacities;
use crate::simulator::Run;

/// # Safety
/// As the header says of an area that is read.
unsafe fn lent<'a>(start: *const u8, len: usize) -> &'a [u8] {
    if len == 0 {
        return &[];
    }
    std::slice::from_raw_parts(start, len)
}

/// # Safety
/// As the header says of an area that is written.
unsafe fn lent_mut<'a>(start: *mut u8, len: usize) -> &'a mut [u8] {
    if len == 0 {
        return &mut [];
    }
    std::slice::from_raw_parts_mut(start, len)
}

/// # Safety
/// The answer area has four bytes for each number.
unsafe fn give(numbers: &[u32], answer: *mut u8) -> u32 {
    lent_mut(answer, 4 * numbers.len()).copy_from_slice(&calls::answer_bytes(numbers));
    numbers[0]
}

/// # Safety
/// As the header says.
#[no_mangle]
pub unsafe extern "C" fn aqfp_map(
    source: *const u8,
    source_len: usize,
    capacity: u32,
    input_capacity: u32,
    prices: *const u8,
    prices_len: usize,
    mapped: *mut u8,
    mapped_len: usize,
    answer: *mut u8,
) -> u32 {
    let capacities = Capacities::new(capacity, input_capacity);
    let (source, prices) = (lent(source, source_len), lent(prices, prices_len));
    let area = lent_mut(mapped, mapped_len);
    give(&calls::map(source, capacities, prices, area), answer)
}

/// # Safety
/// As the header says.
#[no_mangle]
pub unsafe extern "C" fn aqfp_count(
    source: *const u8,
    source_len: usize,
    capacity: u32,
    input_capacity: u32,
    record: u32,
    answer: *mut u8,
) -> u32 {
    let capacities = Capacities::new(capacity, input_capacity);
    give(&calls::count(lent(source, source_len), capacities, record), answer)
}

/// # Safety
/// As the header says.
#[no_mangle]
pub unsafe extern "C" fn aqfp_count_nets(
    source: *const u8,
    source_len: usize,
    capacity: u32,
    input_capacity: u32,
    records: *const u8,
    records_len: usize,
    counts: *mut u8,
    counts_len: usize,
    answer: *mut u8,
) -> u32 {
    let capacities = Capacities::new(capacity, input_capacity);
    let (source, records) = (lent(source, source_len), lent(records, records_len));
    let counts = lent_mut(counts, counts_len);
    give(&calls::count_nets(source, capacities, records, counts), answer)
}

/// # Safety
/// As the header says.
#[no_mangle]
pub unsafe extern "C" fn aqfp_verify(
    source: *const u8,
    source_len: usize,
    capacity: u32,
    input_capacity: u32,
    mapped: *const u8,
    mapped_len: usize,
    answer: *mut u8,
) -> u32 {
    let capacities = Capacities::new(capacity, input_capacity);
    let numbers = calls::verify(lent(source, source_len), capacities, lent(mapped, mapped_len));
    give(&numbers, answer)
}

/// # Safety
/// As the header says.
#[no_mangle]
pub unsafe extern "C" fn aqfp_evaluate(
    source: *const u8,
    source_len: usize,
    row: *const u8,
    row_len: usize,
    values: *mut u8,
    values_len: usize,
    answer: *mut u8,
) -> u32 {
    let values = lent_mut(values, values_len);
    give(&calls::evaluate(lent(source, source_len), lent(row, row_len), values), answer)
}

/// # Safety
/// As the header says.
#[no_mangle]
pub unsafe extern "C" fn aqfp_run(
    source: *const u8,
    source_len: usize,
    capacity: u32,
    input_capacity: u32,
    mapped: *const u8,
    mapped_len: usize,
    row_count: u32,
    rows: *const u8,
    rows_len: usize,
    state: *mut u8,
    state_len: usize,
    outputs: *mut u8,
    outputs_len: usize,
    answer: *mut u8,
) -> u32 {
    let capacities = Capacities::new(capacity, input_capacity);
    let areas = Run {
        row_count,
        rows: lent(rows, rows_len),
        state: lent_mut(state, state_len),
        outputs: lent_mut(outputs, outputs_len),
    };
    let (source, mapped) = (lent(source, source_len), lent(mapped, mapped_len));
    give(&calls::run(source, capacities, mapped, areas), answer)
}

/// # Safety
/// As the header says.
#[no_mangle]
pub unsafe extern "C" fn aqfp_step(
    source: *const u8,
    source_len: usize,
    capacity: u32,
    input_capacity: u32,
    mapped: *const u8,
    mapped_len: usize,
    row: *const u8,
    row_len: usize,
    state: *mut u8,
    state_len: usize,
    answer: *mut u8,
) -> u32 {
    let capacities = Capacities::new(capacity, input_capacity);
    let (source, mapped) = (lent(source, source_len), lent(mapped, mapped_len));
    let state = lent_mut(state, state_len);
    give(&calls::step(source, capacities, mapped, lent(row, row_len), state), answer)
}

/// # Safety
/// As the header says.
#[no_mangle]
pub unsafe extern "C" fn aqfp_levels(
    source: *const u8,
    source_len: usize,
    capacity: u32,
    levelled: *mut u8,
    levelled_len: usize,
    answer: *mut u8,
) -> u32 {
    let levelled = lent_mut(levelled, levelled_len);
    give(&calls::levels(lent(source, source_len), capacity, levelled), answer)
}

/// # Safety
/// As the header says.
#[no_mangle]
pub unsafe extern "C" fn aqfp_strip(
    capacity: u32,
    input_capacity: u32,
    mapped: *const u8,
    mapped_len: usize,
    source: *mut u8,
    source_len: usize,
    answer: *mut u8,
) -> u32 {
    let capacities = Capacities::new(capacity, input_capacity);
    let source = lent_mut(source, source_len);
    give(&calls::strip(capacities, lent(mapped, mapped_len), source), answer)
}
