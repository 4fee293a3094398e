//! What a call shows of inputs that branch and of price lists, so that comparisons can say what they
//! met.

use std::collections::BTreeSet;

use crate::calls::NO_TREE;
use crate::capacities::Capacities;
use crate::engine::{Call, Name, Outcome};
use crate::generator::fanouts;
use crate::net::{buffers_by_distance, distances};
use crate::prices;
use crate::record::*;
use crate::source::check_source;

#[derive(Clone, Copy, PartialEq, Eq, PartialOrd, Ord, Debug)]
pub enum Reached {
    /// An accepted mapped netlist in which an input feeds several slots.
    Branching,
    /// The same, with more than 255 slots on an input.
    Crowded,
    /// An accepted mapped netlist in which an input feeds as many slots as it may, and that is several.
    Full,
    /// 8 on an input with one node too many, which may feed several.
    TreelessInput,
    /// 8 on a gate, with as few nodes as an input could feed.
    TreelessGate,
    /// No tree, by the count of one net or of a list, on an input with one node too many, which may
    /// feed several.
    TreelessCount,
    /// 17 on an input that feeds one slot too many and may feed several.
    OverfullInput,
    /// 17 on a gate that feeds as few slots as an input could.
    OverfullGate,
    /// The mapper accepts with an empty list.
    EmptyList,
    /// The mapper accepts with a list of prices.
    FullList,
    /// The same, and a buffer feeds so many slots.
    PricedBuffer(u8),
    /// The same, and a gate of a kind feeds so many slots.
    PricedGate(u8, u8),
    /// The mapper accepts with a list whose prices are alike but at a position.
    AlikeBut(u8),
    /// 27.
    WrongLength,
    /// 27 although a price is 0.
    WrongLengthAndZero,
    /// 27 although a check from 2 to 7 fails.
    WrongLengthAndSource,
    /// 28 at a position.
    ZeroAt(u8),
    /// 28 although a later price is 0 too.
    Zeros,
    /// 28 although a check from 2 to 7 fails.
    ZeroAndSource,
    /// 1 or 26, although 27 or 28 fails too.
    Before(u8, u8),
}

pub const ALL_REACHED: [Reached; 51] = [
    Reached::Branching,
    Reached::Crowded,
    Reached::Full,
    Reached::TreelessInput,
    Reached::TreelessGate,
    Reached::TreelessCount,
    Reached::OverfullInput,
    Reached::OverfullGate,
    Reached::EmptyList,
    Reached::FullList,
    Reached::PricedBuffer(1),
    Reached::PricedBuffer(2),
    Reached::PricedBuffer(3),
    Reached::PricedBuffer(4),
    Reached::PricedGate(AND, 0),
    Reached::PricedGate(AND, 1),
    Reached::PricedGate(OR, 0),
    Reached::PricedGate(OR, 1),
    Reached::PricedGate(MAJ, 0),
    Reached::PricedGate(MAJ, 1),
    Reached::AlikeBut(0),
    Reached::AlikeBut(1),
    Reached::AlikeBut(2),
    Reached::AlikeBut(3),
    Reached::AlikeBut(4),
    Reached::AlikeBut(5),
    Reached::AlikeBut(6),
    Reached::AlikeBut(7),
    Reached::AlikeBut(8),
    Reached::AlikeBut(9),
    Reached::AlikeBut(10),
    Reached::WrongLength,
    Reached::WrongLengthAndZero,
    Reached::WrongLengthAndSource,
    Reached::ZeroAt(0),
    Reached::ZeroAt(1),
    Reached::ZeroAt(2),
    Reached::ZeroAt(3),
    Reached::ZeroAt(4),
    Reached::ZeroAt(5),
    Reached::ZeroAt(6),
    Reached::ZeroAt(7),
    Reached::ZeroAt(8),
    Reached::ZeroAt(9),
    Reached::ZeroAt(10),
    Reached::Zeros,
    Reached::ZeroAndSource,
    Reached::Before(1, 27),
    Reached::Before(1, 28),
    Reached::Before(26, 27),
    Reached::Before(26, 28),
];

impl Reached {
    /// In words.
    pub fn words(self) -> String {
        let words = match self {
            Reached::Branching => "inputs that branch",
            Reached::Crowded => "inputs that feed over 255 slots",
            Reached::Full => "inputs that feed b slots",
            Reached::TreelessInput => "8 on inputs at b + 1",
            Reached::TreelessGate => "8 on gates at b or less",
            Reached::TreelessCount => "no tree by count on inputs at b + 1",
            Reached::OverfullInput => "17 on inputs at b + 1",
            Reached::OverfullGate => "17 on gates at b or less",
            Reached::EmptyList => "empty lists accepted",
            Reached::FullList => "lists of prices accepted",
            Reached::PricedBuffer(slots) => return format!("priced buffers that feed {slots}"),
            Reached::PricedGate(kind, slots) => {
                return format!("priced gates of kind {kind} that feed {slots}");
            }
            Reached::AlikeBut(position) => return format!("lists alike but at {position}"),
            Reached::WrongLength => "27",
            Reached::WrongLengthAndZero => "27 with a price of 0",
            Reached::WrongLengthAndSource => "27 with a bad source",
            Reached::ZeroAt(position) => return format!("28 at {position}"),
            Reached::Zeros => "28 with a later price of 0",
            Reached::ZeroAndSource => "28 with a bad source",
            Reached::Before(number, later) => return format!("{number} with {later}"),
        };
        words.to_string()
    }

    /// Whether it is about price lists.
    pub fn of_lists(self) -> bool {
        matches!(
            self,
            Reached::EmptyList
                | Reached::FullList
                | Reached::PricedBuffer(_)
                | Reached::PricedGate(..)
                | Reached::AlikeBut(_)
                | Reached::WrongLength
                | Reached::WrongLengthAndZero
                | Reached::WrongLengthAndSource
                | Reached::ZeroAt(_)
                | Reached::Zeros
                | Reached::ZeroAndSource
                | Reached::Before(..)
        )
    }
}

/// The nodes at distance 1 of a net.
fn nearest(source: &[Record], driver: usize, s: usize) -> usize {
    let net = distances(source, driver);
    let buffers = buffers_by_distance(&net, s, usize::MAX).unwrap_or_default();
    let near = net.iter().filter(|&&distance| distance == 1).count();
    near + buffers.get(1).copied().unwrap_or(0)
}

/// An accepted mapped netlist.
fn accepted(mapped: &[u8], capacities: Capacities) -> Vec<Reached> {
    let b = capacities.input as usize;
    let records = decode(mapped);
    let inputs = records.iter().zip(fanouts(&records)).filter(|(record, _)| record.kind == INPUT);
    let fed: Vec<usize> = inputs.map(|(_, fed)| fed).collect();
    let mut shown = match fed.iter().max() {
        None | Some(0 | 1) => Vec::new(),
        Some(2..=255) => vec![Reached::Branching],
        Some(_) => vec![Reached::Crowded],
    };
    if b > 1 && fed.contains(&b) {
        shown.push(Reached::Full);
    }
    shown
}

/// The position at which a list of prices that are alike has another.
fn alike_but(list: &[u8]) -> Option<Reached> {
    let number = |price: u8| list.iter().filter(|&&other| other == price).count();
    let position = list.iter().position(|&price| number(price) == 1)?;
    let alike = list.iter().any(|&price| number(price) == list.len() - 1);
    alike.then_some(Reached::AlikeBut(position as u8))
}

/// An accepted call of the mapper: what its list shows on the mapped netlist.
fn priced(list: &[u8], mapped: &[u8]) -> Vec<Reached> {
    if list.is_empty() {
        return vec![Reached::EmptyList];
    }
    let records = decode(mapped);
    let one = |(record, fed): (&Record, usize)| match record.kind {
        BUFFER => Some(Reached::PricedBuffer(fed as u8)),
        AND | OR | MAJ => Some(Reached::PricedGate(record.kind, fed as u8)),
        _ => None,
    };
    let shown: BTreeSet<Reached> = records.iter().zip(fanouts(&records)).filter_map(one).collect();
    [Reached::FullList].into_iter().chain(shown).chain(alike_but(list)).collect()
}

/// A call of the mapper that 1, 26, 27 or 28 refuses: what its list shows.
fn refused_list(call: &Call, number: u32) -> Vec<Reached> {
    let list = &call.prices[..];
    let Err(refusal) = prices::check(list) else {
        return Vec::new();
    };
    let later = refusal.place as usize + 1;
    let bad_source = check_source(&call.source).is_err();
    let all = match number {
        27 => vec![
            (true, Reached::WrongLength),
            (list.contains(&0), Reached::WrongLengthAndZero),
            (bad_source, Reached::WrongLengthAndSource),
        ],
        28 => vec![
            (true, Reached::ZeroAt(refusal.place as u8)),
            (list[later..].contains(&0), Reached::Zeros),
            (bad_source, Reached::ZeroAndSource),
        ],
        _ => vec![(true, Reached::Before(number as u8, refusal.number as u8))],
    };
    all.into_iter().filter(|(shows, _)| *shows).map(|(_, reached)| reached).collect()
}

/// The drivers that were counted and have no tree.
fn counted_treeless(call: &Call, outcome: &Outcome) -> BTreeSet<usize> {
    let counts = match call.name {
        Name::Count => vec![(call.number as usize, outcome.answer[2])],
        _ => {
            let drivers = call.records.chunks_exact(2).map(|two| [two[0], two[1]]);
            let counts = outcome.areas[0].chunks_exact(4).map(|c| [c[0], c[1], c[2], c[3]]);
            let both = drivers.map(u16::from_le_bytes).zip(counts.map(u32::from_le_bytes));
            both.map(|(driver, count)| (driver.into(), count)).collect()
        }
    };
    counts.into_iter().filter(|&(_, count)| count == NO_TREE).map(|(driver, _)| driver).collect()
}

/// An accepted count of one net or of a list.
fn counted(call: &Call, outcome: &Outcome) -> Option<Reached> {
    let treeless = counted_treeless(call, outcome);
    let source = decode(&call.source);
    let Capacities { input, .. } = call.capacities;
    let shows = |driver: usize| {
        let nodes = || nearest(&source, driver, call.capacities.s());
        input > 1 && source[driver].kind == INPUT && nodes() == input as usize + 1
    };
    treeless.into_iter().any(shows).then_some(Reached::TreelessCount)
}

/// What a driver that has or feeds so many shows, if b is above 1.
fn refused(
    driver: &Record,
    number: usize,
    capacities: Capacities,
    [input, gate]: [Reached; 2],
) -> Option<Reached> {
    let b = capacities.input as usize;
    match driver.kind {
        INPUT if b > 1 && number == b + 1 => Some(input),
        AND | OR | MAJ if number <= b => Some(gate),
        _ => None,
    }
}

/// What a call with its outcome shows.
pub fn reached(call: &Call, outcome: &Outcome) -> Vec<Reached> {
    let (number, place) = (outcome.answer[0], outcome.answer[1] as usize);
    let one = match (number, call.name) {
        (0, Name::Map) => {
            let mapped = &outcome.areas[0][..WIDTH * outcome.answer[2] as usize];
            return [accepted(mapped, call.capacities), priced(&call.prices, mapped)].concat();
        }
        (1 | 26 | 27 | 28, Name::Map) => return refused_list(call, number),
        (0, Name::Verify | Name::Run | Name::Step | Name::Strip) => {
            return accepted(&call.mapped, call.capacities);
        }
        (0, Name::Count | Name::CountNets) => counted(call, outcome),
        (8, _) => {
            let source = decode(&call.source);
            let nodes = nearest(&source, place, call.capacities.s());
            let both = [Reached::TreelessInput, Reached::TreelessGate];
            refused(&source[place], nodes, call.capacities, both)
        }
        (17, _) => {
            let mapped = decode(&call.mapped);
            let fed = fanouts(&mapped)[place];
            let both = [Reached::OverfullInput, Reached::OverfullGate];
            refused(&mapped[place], fed, call.capacities, both)
        }
        _ => None,
    };
    one.into_iter().collect()
}
