//! The calls as a C host sees them: the numbers of the answer in the order of specification 4.

use crate::capacities::Capacities;
use crate::net::{self, Count};
use crate::refusal::Refusal;
use crate::simulator::{self, Run};
use crate::{levels, mapper, strip, verifier};

/// What stands for "no tree" in the answer of the count and in a list of counts.
pub const NO_TREE: u32 = 4_294_967_295;

/// An answer: number and place, then the accepted call's numbers or zeros.
fn answer<const K: usize, const A: usize>(result: Result<[u32; K], Refusal>) -> [u32; A] {
    let mut numbers = [0; A];
    match result {
        Ok(values) => numbers[2..].copy_from_slice(&values),
        Err(refusal) => numbers[..2].copy_from_slice(&[refusal.number, refusal.place]),
    }
    numbers
}

pub fn map(source: &[u8], capacities: Capacities, prices: &[u8], mapped: &mut [u8]) -> [u32; 7] {
    answer(mapper::map(source, capacities, prices, mapped))
}

pub fn count(source: &[u8], capacities: Capacities, record: u32) -> [u32; 3] {
    answer(match net::count(source, capacities, record) {
        Count::Fewest(buffers) => Ok([buffers]),
        Count::NoTree => Ok([NO_TREE]),
        Count::Refused(refusal) => Err(refusal),
    })
}

pub fn count_nets(
    source: &[u8],
    capacities: Capacities,
    records: &[u8],
    counts: &mut [u8],
) -> [u32; 2] {
    answer(net::count_nets(source, capacities, records, counts.len()).map(|nets| {
        for (four, net) in counts.chunks_exact_mut(4).zip(nets) {
            let count = net.map_or(NO_TREE, |buffers| buffers as u32);
            four.copy_from_slice(&count.to_le_bytes());
        }
        []
    }))
}

pub fn verify(source: &[u8], capacities: Capacities, mapped: &[u8]) -> [u32; 3] {
    answer(verifier::verify(source, capacities, mapped).map(|buffers| [buffers]))
}

pub fn evaluate(source: &[u8], row: &[u8], values: &mut [u8]) -> [u32; 2] {
    answer(simulator::evaluate(source, row, values).map(|()| []))
}

pub fn run(source: &[u8], capacities: Capacities, mapped: &[u8], areas: Run) -> [u32; 2] {
    answer(simulator::run(source, capacities, mapped, areas).map(|()| []))
}

pub fn step(
    source: &[u8],
    capacities: Capacities,
    mapped: &[u8],
    row: &[u8],
    state: &mut [u8],
) -> [u32; 2] {
    answer(simulator::step(source, capacities, mapped, row, state).map(|()| []))
}

pub fn levels(source: &[u8], capacity: u32, levelled: &mut [u8]) -> [u32; 2] {
    answer(levels::write(source, capacity, levelled).map(|()| []))
}

pub fn strip(capacities: Capacities, mapped: &[u8], source: &mut [u8]) -> [u32; 3] {
    answer(strip::strip(capacities, mapped, source).map(|records| [records]))
}

/// The bytes of an answer, four for each number, low byte first.
pub fn answer_bytes(numbers: &[u32]) -> Vec<u8> {
    numbers.iter().flat_map(|number| number.to_le_bytes()).collect()
}
