//! The test data in the repository: both implementations answer every case of the reader and of the
//! calls as it says, and the views, of which there is one implementation, every case of theirs.

use std::fs;
use std::path::PathBuf;

use reference::calls::answer_bytes;
use reference::capacities::Capacities;
use reference::cases::FILL;
use reference::engine::{perform, Call, Name, FAST, PLAIN};
use reference::source::check_source;
use reference::views::{block_view, record_view};

fn number(four: &[u8]) -> u32 {
    u32::from_le_bytes([four[0], four[1], four[2], four[3]])
}

fn numbers(field: &[u8]) -> Vec<u32> {
    field.chunks_exact(4).map(number).collect()
}

/// The cases of a family, of so many fields each.
fn cases(family: &str, fields: usize) -> Vec<Vec<Vec<u8>>> {
    let folder = PathBuf::from(env!("CARGO_MANIFEST_DIR")).join("../../crates/test_calls/data");
    let bytes = fs::read(folder.join(family)).expect("a file of cases");
    let mut at = 4;
    let mut field = || {
        let len = number(&bytes[at..]) as usize;
        at += 4 + len;
        bytes[at - len..at].to_vec()
    };
    let cases = (0..number(&bytes)).map(|_| (0..fields).map(|_| field()).collect()).collect();
    assert_eq!(at, bytes.len(), "{family}");
    cases
}

/// The call of a case, and its fields behind those that go in: the answer, and the areas after it.
fn call(name: Name, fields: &[Vec<u8>]) -> (Call, &[Vec<u8>]) {
    let mut call = Call {
        name,
        source: Vec::new(),
        capacities: Capacities::new(0, 0),
        prices: Vec::new(),
        number: 0,
        records: Vec::new(),
        mapped: Vec::new(),
        rows: Vec::new(),
        areas: Vec::new(),
    };
    let mut left = fields;
    let mut next = || {
        let (first, rest) = left.split_first().expect("one more field");
        left = rest;
        first.clone()
    };
    if name != Name::Strip {
        call.source = next();
    }
    let mut own = Vec::new();
    if name != Name::Evaluate {
        own = numbers(&next());
        call.capacities.buffer = own.remove(0);
    }
    if !matches!(name, Name::Evaluate | Name::Levels) {
        call.capacities.input = own.remove(0);
    }
    match name {
        Name::Map => {
            call.areas = vec![vec![FILL; own.remove(0) as usize]];
            call.prices = next();
        }
        Name::Count | Name::Run => call.number = own.remove(0),
        Name::CountNets => call.records = next(),
        _ => {}
    }
    assert!(own.is_empty(), "{name:?}: numbers {own:?}");
    if matches!(name, Name::Verify | Name::Run | Name::Step | Name::Strip) {
        call.mapped = next();
    }
    if matches!(name, Name::Evaluate | Name::Run | Name::Step) {
        call.rows = next();
    }
    match name {
        Name::Map | Name::Count | Name::Verify => {}
        Name::Run => call.areas = vec![next(), next()],
        _ => call.areas = vec![next()],
    }
    (call, left)
}

#[test]
fn every_call() {
    let families = [
        ("count", 3, Name::Count),
        ("count_nets", 6, Name::CountNets),
        ("mapper", 5, Name::Map),
        ("verifier", 4, Name::Verify),
        ("evaluate", 5, Name::Evaluate),
        ("run", 9, Name::Run),
        ("step", 7, Name::Step),
        ("levels", 5, Name::Levels),
        ("strip", 5, Name::Strip),
    ];
    for (family, fields, name) in families {
        for (k, case) in cases(family, fields).iter().enumerate() {
            let (call, expected) = call(name, case);
            for engine in [PLAIN, FAST] {
                let outcome = perform(&engine, &call);
                let found = [vec![answer_bytes(&outcome.answer)], outcome.areas].concat();
                assert!(found == expected, "{family}, case {k}: {:?}", outcome.answer);
            }
        }
    }
}

/// Checks 2 to 7, alone and as the count makes them: it refuses a record that there is not by 20, after
/// them.
#[test]
fn reader() {
    for (k, case) in cases("reader", 2).iter().enumerate() {
        let [source, expected] = &case[..] else {
            panic!("case {k}");
        };
        let alone = check_source(source).err().map_or([0, 0], |by| [by.number, by.place]);
        assert_eq!(&answer_bytes(&alone), expected, "case {k}");
        for engine in [PLAIN, FAST] {
            let found = match (engine.count)(source, Capacities::new(2, 1), u32::MAX) {
                [20, ..] => [0, 0],
                [number, place, _] => [number, place],
            };
            assert_eq!(&answer_bytes(&found), expected, "case {k}");
        }
    }
}

#[test]
fn record_views() {
    for (k, case) in cases("record_view", 4).iter().enumerate() {
        let [source, mapped, given, part] = &case[..] else {
            panic!("case {k}");
        };
        let found = record_view(source, mapped, numbers(given)[0] as usize);
        assert_eq!(found, part, "case {k}");
    }
}

#[test]
fn block_views() {
    for (k, case) in cases("block_view", 4).iter().enumerate() {
        let [source, given, mapped, part] = &case[..] else {
            panic!("case {k}");
        };
        let given = numbers(given);
        let capacities = Capacities::new(given[0], given[1]);
        let found = block_view(source, capacities, mapped, given[2] as usize);
        assert_eq!(found, part, "case {k}");
    }
}
