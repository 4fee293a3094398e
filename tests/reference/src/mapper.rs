//! The mapper: checks 1, 26, 27, 28, 2 to 10 and the mapped netlist in the order of specification
//! 2.5.

use crate::capacities::Capacities;
use crate::net::{buffers_by_distance, distances, fewest_of, sinks, Sink};
use crate::prices::{self, junctions};
use crate::record::*;
use crate::refusal::{refuse, Refusal};
use crate::source::{check_source, depth, number_of};

/// What the mapper writes for a source and capacities, before check 10.
pub struct Mapping {
    pub records: Vec<Record>,
    /// The index of each record's first buffer, were it a driver; one more entry for the end.
    pub starts: Vec<usize>,
}

/// A node of a tree: a buffer of the mapped netlist, or a sink of the source.
enum Node {
    Buffer(usize),
    Sink(Sink),
}

/// Checks 8 and 9, and where each driver's buffers start.
fn block_starts(source: &[Record], capacities: Capacities) -> Result<Vec<usize>, Refusal> {
    let mut starts = vec![source.len()];
    for k in 0..source.len() {
        match fewest_of(source, k, capacities) {
            Some(buffers) => starts.push(starts[k] + buffers),
            None => return refuse(8, k),
        }
    }
    if starts[source.len()] > MAX_MAPPED {
        return refuse(9, 0);
    }
    Ok(starts)
}

/// The nodes at one distance: buffers first, then sinks by record and slot.
fn nodes_at(d: usize, first_buffer: usize, buffers: usize, sinks: &[Sink]) -> Vec<Node> {
    let mut nodes: Vec<Node> = (0..buffers).map(|b| Node::Buffer(first_buffer + b)).collect();
    nodes.extend(sinks.iter().filter(|sink| sink.distance == d).map(|&sink| Node::Sink(sink)));
    nodes
}

/// Adds the tree of one driver; its buffers go to the end of the records.
fn add_tree(records: &mut Vec<Record>, source: &[Record], driver: usize, capacities: Capacities) {
    let sinks = sinks(source, driver);
    let net = distances(source, driver);
    let (s, most) = (capacities.s(), capacities.of(source[driver].kind));
    let buffers = buffers_by_distance(&net, s, most).expect("check 8 has passed");
    let mut nearer = driver;
    for (d, &here) in buffers.iter().enumerate().skip(1) {
        let first = records.len();
        let level = source[driver].level + d as u16;
        records.resize(first + here, Record::buffer(level, UNUSED));
        for (k, node) in nodes_at(d, first, here, &sinks).iter().enumerate() {
            let fanin = if d == 1 { driver } else { nearer + k / s } as u16;
            match node {
                Node::Buffer(b) => records[*b].slots[0] = fanin,
                Node::Sink(sink) => records[sink.record].slots[sink.slot] = fanin,
            }
        }
        nearer = first;
    }
}

/// Checks 1, 26, 2 to 9, then the mapped netlist.
pub fn mapping(bytes: &[u8], capacities: Capacities) -> Result<Mapping, Refusal> {
    capacities.check()?;
    let source = check_source(bytes)?;
    let starts = block_starts(&source, capacities)?;
    let mut records = source.clone();
    for driver in (0..source.len()).filter(|&k| source[k].is_driver()) {
        assert_eq!(records.len(), starts[driver]);
        add_tree(&mut records, &source, driver, capacities);
    }
    Ok(Mapping { records, starts })
}

/// A part in percent: of all whole numbers a nearest one, of two as near the even one.
fn share(part: usize, whole: usize) -> usize {
    let nearest = |percent: &usize| ((percent * whole).abs_diff(100 * part), percent % 2);
    (0..=100).min_by_key(nearest).unwrap_or(0)
}

/// The mapper: the five numbers after number and place, with the area written.
pub fn map(
    source: &[u8],
    capacities: Capacities,
    prices: &[u8],
    area: &mut [u8],
) -> Result<[u32; 5], Refusal> {
    capacities.check()?;
    prices::check(prices)?;
    let records = mapping(source, capacities)?.records;
    let bytes = encode(&records);
    if area.len() < bytes.len() {
        return refuse(10, 0);
    }
    area[..bytes.len()].copy_from_slice(&bytes);
    let jjs = junctions(prices, &area[..bytes.len()]);
    let (buffers, depth) = (number_of(BUFFER, &records), depth(&records).into());
    let numbers = [records.len(), buffers, depth, jjs.all, share(jjs.buffers, jjs.all)];
    Ok(numbers.map(|number| number as u32))
}
