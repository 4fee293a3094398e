//! The worked cases (specification 8).

use reference::calls::{answer_bytes, evaluate, map, run, step, verify, NO_TREE};
use reference::capacities::Capacities;
use reference::engine::{Engine, BY_A_PASS, FAST, PLAIN};
use reference::mapper::mapping;
use reference::net::{fewest, fewest_by_formula};
use reference::record::*;
use reference::search::fewest_of_all_trees;
use reference::shapes;
use reference::simulator::Run;
use reference::views::{block_view, record_view};

/// P1 to P12, of a gate or of an input with b = 1: s, distances, fewest buffers.
const NETS: [(usize, &[usize], Option<usize>); 12] = [
    (2, &[], Some(0)),
    (2, &[1], Some(0)),
    (2, &[1, 1], None),
    (2, &[2, 2], Some(1)),
    (2, &[2, 2, 2], None),
    (3, &[2, 2, 2], Some(1)),
    (2, &[3, 3, 3], Some(3)),
    (2, &[2, 5, 5, 5], Some(5)),
    (2, &[1, 2], None),
    (2, &[2, 3, 3], Some(2)),
    (2, &[2, 3, 3, 3], None),
    (4, &[2, 2, 2, 2, 2], None),
];

/// b, s, distances, fewest buffers of an input, fewest buffers of a gate, which feeds one slot.
type Branching = (usize, usize, &'static [usize], Option<usize>, Option<usize>);

/// Nets of an input with another b, and of a gate with the same sinks.
const BRANCHING: [Branching; 8] = [
    (2, 2, &[1, 1], Some(0), None),
    (2, 2, &[1, 1, 1], None, None),
    (2, 2, &[2, 2], Some(1), Some(1)),
    (2, 2, &[2, 2, 2], Some(2), None),
    (2, 2, &[1, 2], Some(1), None),
    (2, 2, &[2, 3, 3, 3], Some(4), None),
    (2, 4, &[2, 2, 2, 2, 2], Some(2), None),
    (3, 2, &[1, 1, 3], Some(2), None),
];

/// Shares (8.3): gates, buffers, JJs, share.
const SHARES: [(usize, usize, u32, u32); 8] = [
    (7, 3, 48, 12),
    (173, 81, 1200, 14),
    (107, 46, 734, 13),
    (171, 80, 1186, 13),
    (2, 3, 18, 33),
    (1, 6, 18, 67),
    (1, 3, 12, 50),
    (0, 0, 0, 0),
];

fn worked() -> Vec<u8> {
    encode(&shapes::worked())
}

fn worked_mapped() -> Vec<u8> {
    encode(&shapes::worked_mapped())
}

/// The fewest buffers of a net by every way to count them.
fn hold_net(b: usize, s: usize, distances: &[usize], expected: Option<usize>) {
    let words = format!("b {b}, s {s}, {distances:?}");
    assert_eq!(fewest(distances, s, b), expected, "{words}");
    assert_eq!(fewest_by_formula(distances, s, b), expected, "{words}");
    assert_eq!(fewest_of_all_trees(distances, s, b), expected, "{words}");
    let source = encode(&shapes::net(distances));
    let capacities = Capacities::new(s as u32, b as u32);
    let number = expected.map_or(NO_TREE, |buffers| buffers as u32);
    for engine in [PLAIN, FAST] {
        assert_eq!((engine.count)(&source, capacities, 0), [0, 0, number], "{words}");
    }
    hold_counts(&source, capacities, &[0, 1, 0], &[number; 3]);
}

#[test]
fn nets_by_every_way_to_count() {
    for (s, distances, expected) in NETS {
        hold_net(1, s, distances, expected);
    }
    for (b, s, distances, expected, _) in BRANCHING {
        hold_net(b, s, distances, expected);
    }
}

/// The fewest buffers of a gate with these sinks, whatever b is.
fn hold_gate(b: usize, s: usize, distances: &[usize], expected: Option<usize>) {
    let twins = shapes::twins(distances, true);
    let gate = twins.iter().position(Record::is_gate).expect("a gate");
    let number = expected.map_or(NO_TREE, |buffers| buffers as u32);
    for b in [1, b as u32, 4095] {
        let capacities = Capacities::new(s as u32, b);
        for engine in [PLAIN, FAST] {
            let counted = (engine.count)(&encode(&twins), capacities, gate as u32);
            assert_eq!(counted, [0, 0, number], "b {b}, s {s}, {distances:?}");
        }
    }
}

#[test]
fn gates_do_not_branch() {
    for (s, distances, expected) in NETS {
        hold_gate(2, s, distances, expected);
    }
    for (b, s, distances, _, expected) in BRANCHING {
        hold_gate(b, s, distances, expected);
    }
}

/// The mapper writes as many buffers on an input as are counted.
#[test]
fn mapped_nets_of_inputs() {
    for (b, s, distances, expected, _) in BRANCHING {
        let alone = shapes::twins(distances, false);
        let capacities = Capacities::new(s as u32, b as u32);
        match (mapping(&encode(&alone), capacities), expected) {
            (Ok(own), Some(buffers)) => {
                assert_eq!(own.starts[1] - own.starts[0], buffers, "{distances:?}");
            }
            (Err(refusal), None) => assert_eq!([refusal.number, refusal.place], [8, 0]),
            _ => panic!("b {b}, s {s}, {distances:?}"),
        }
    }
}

/// The sinks at distances 1, 1 and 3 of an input with b = 3, mapped: three nodes on the input, the
/// buffer first.
#[test]
fn nodes_of_distance_1_hang_on_the_driver() {
    let source = shapes::twins(&[1, 3, 1], false);
    let input = Record::new(INPUT, 0, 0, &[]);
    let expected = [
        input,
        input,
        input,
        input,
        Record::new(AND, 0, 1, &[0, 1]),
        Record::new(AND, 0, 3, &[8, 10]),
        Record::new(AND, 0, 1, &[0, 3]),
        Record::buffer(1, 0),
        Record::buffer(2, 7),
        Record::buffer(1, 2),
        Record::buffer(2, 9),
    ];
    for engine in [PLAIN, FAST] {
        let mut area = vec![0; 110];
        let answer = (engine.map)(&encode(&source), Capacities::new(2, 3), &[], &mut area);
        assert_eq!(answer, [0, 0, 11, 4, 0, 26, 31]);
        assert_eq!(decode(&area), expected);
        assert_eq!((engine.verify)(&encode(&source), Capacities::new(2, 3), &area), [0, 0, 4]);
        assert_eq!((engine.verify)(&encode(&source), Capacities::new(2, 2), &area), [17, 0, 0]);
        let treeless = (engine.map)(&encode(&source), Capacities::new(2, 2), &[], &mut area);
        assert_eq!(treeless, [8, 0, 0, 0, 0, 0, 0]);
    }
}

/// b at its limits is accepted, beyond them 26, as a number of 32 bits; after 1 and before all others.
#[test]
fn limits_of_b() {
    let (source, mapped) = (worked(), worked_mapped());
    for engine in [PLAIN, FAST] {
        for b in [1, 2, 4094, 4095] {
            let capacities = Capacities::new(2, b);
            let mut area = [0; 80];
            assert_eq!((engine.map)(&source, capacities, &[], &mut area)[..3], [0, 0, 8], "b {b}");
            assert_eq!(area[..], mapped, "b {b}");
            assert_eq!((engine.verify)(&source, capacities, &mapped), [0, 0, 3], "b {b}");
        }
        for b in [0, 4096, 4097, 65_535, 65_536, 65_537, 69_631, u32::MAX] {
            for (s, number) in [(2, 26), (4, 26), (5, 1), (0, 1)] {
                let capacities = Capacities::new(s, b);
                let refused = [number, 0, 0];
                for source in [&source[..], &source[1..], &[]] {
                    let mut area = [7; 80];
                    assert_eq!((engine.map)(source, capacities, &[], &mut area)[..3], refused);
                    assert_eq!(area, [7; 80]);
                    assert_eq!((engine.count)(source, capacities, 9), refused);
                    hold_refusal(source, capacities, &[9], 3, [number, 0]);
                    for mapped in [&mapped[..], &mapped[1..], &[]] {
                        assert_eq!((engine.verify)(source, capacities, mapped), refused);
                        assert_eq!((engine.strip)(capacities, mapped, &mut area), refused);
                        let step = (engine.step)(source, capacities, mapped, &[2], &mut area);
                        assert_eq!(step, [number, 0]);
                        let (state, outputs) = (&mut area[..], &mut [][..]);
                        let areas = Run { row_count: 10_001, rows: &[], state, outputs };
                        assert_eq!((engine.run)(source, capacities, mapped, areas), [number, 0]);
                        assert_eq!(area, [7; 80]);
                    }
                }
            }
        }
    }
}

/// A gate on one input, with so many outputs one level above it.
fn feeding_gate(slots: usize) -> Vec<Record> {
    let mut records = shapes::inputs(1);
    records.push(Record::new(AND, 0, 1, &[0, 0]));
    records.resize(2 + slots, Record::new(OUTPUT, 0, 2, &[1]));
    records
}

/// An input that feeds as many slots as it may, about one byte and at the limit, and one more; a gate
/// with as many, or as many as a source has room for.
#[test]
fn crowds() {
    for b in [2, 3, 255, 256, 257, 300, 4095] {
        for (sinks, fits) in [(b, true), (b + 1, false)] {
            let source = encode(&shapes::sinks_at(sinks, 1));
            let capacities = Capacities::new(2, b as u32);
            for engine in [PLAIN, FAST] {
                let mut area = vec![0; source.len()];
                let [number, _, m, buffers, ..] = (engine.map)(&source, capacities, &[], &mut area);
                let verified = (engine.verify)(&source, capacities, &source);
                let stripped = (engine.strip)(capacities, &source, &mut vec![0; source.len()]);
                if fits {
                    let records = (source.len() / WIDTH) as u32;
                    assert_eq!([number, m, buffers], [0, records, 0], "b {b}");
                    assert!(area == source, "b {b}");
                    assert_eq!((verified, stripped), ([0, 0, 0], [0, 0, records]), "b {b}");
                } else {
                    assert_eq!([number, m, buffers], [8, 0, 0], "b {b}");
                    assert_eq!((verified, stripped), ([17, 0, 0], [24, 0, 0]), "b {b}");
                }
            }
        }
        let gate = encode(&shapes::on_a_gate(b.min(4093), 1));
        let feeding = encode(&feeding_gate(b.min(4093)));
        let capacities = Capacities::new(2, b as u32);
        for engine in [PLAIN, FAST] {
            let answer = (engine.map)(&gate, capacities, &[], &mut vec![0; 200_000]);
            assert_eq!(answer, [8, 2, 0, 0, 0, 0, 0], "b {b}");
            assert_eq!((engine.verify)(&feeding, capacities, &feeding), [17, 1, 0], "b {b}");
            let stripped = (engine.strip)(capacities, &feeding, &mut vec![0; feeding.len()]);
            assert_eq!(stripped, [24, 0, 0], "b {b}");
        }
    }
}

/// A run on a netlist without buffers: the outputs, and 17 with b = 1.
#[test]
fn waves_without_buffers() {
    let source = encode(&shapes::unbuffered());
    let rows = [0, 0, 0, 1, 1, 0, 1, 1];
    for engine in [PLAIN, FAST] {
        let (mut state, mut outputs) = ([9; 12], [9; 8]);
        let areas = Run { row_count: 4, rows: &rows, state: &mut state, outputs: &mut outputs };
        assert_eq!((engine.run)(&source, Capacities::new(2, 2), &source, areas), [0, 0]);
        // Row by row: or with the second input inverted, then and.
        assert_eq!(outputs, [1, 0, 0, 0, 1, 0, 1, 1]);
        let (mut state, mut outputs) = ([9; 12], [9; 8]);
        let areas = Run { row_count: 4, rows: &rows, state: &mut state, outputs: &mut outputs };
        assert_eq!((engine.run)(&source, Capacities::unbranched(2), &source, areas), [17, 0]);
        assert_eq!((state, outputs), ([9; 12], [9; 8]));
    }
}

#[test]
fn shares() {
    for (gates, buffers, jjs, share) in SHARES {
        let source = encode(&shapes::priced(gates, buffers));
        for engine in [PLAIN, FAST] {
            let answer =
                (engine.map)(&source, Capacities::unbranched(2), &[], &mut vec![0; 10_000]);
            assert_eq!(
                [answer[0], answer[3], answer[5], answer[6]],
                [0, buffers as u32, jjs, share]
            );
        }
    }
}

fn indices(list: &[u16]) -> Vec<u8> {
    list.iter().flat_map(|index| index.to_le_bytes()).collect()
}

/// Answer and counts of a list, over an area that is filled before.
fn listed(
    engine: &Engine,
    source: &[u8],
    capacities: Capacities,
    list: &[u8],
    len: usize,
) -> ([u32; 2], Vec<u8>) {
    let mut counts = vec![0xA5; len];
    ((engine.count_nets)(source, capacities, list, &mut counts), counts)
}

fn hold_counts(source: &[u8], capacities: Capacities, list: &[u16], counts: &[u32]) {
    for engine in [PLAIN, FAST] {
        let found = listed(&engine, source, capacities, &indices(list), 4 * list.len());
        assert_eq!(found, ([0, 0], answer_bytes(counts)), "{capacities:?} {list:?}");
    }
}

fn hold_refusal(source: &[u8], capacities: Capacities, list: &[u8], len: usize, refusal: [u32; 2]) {
    for engine in [PLAIN, FAST] {
        assert_eq!(listed(&engine, source, capacities, list, len), (refusal, vec![0xA5; len]));
    }
}

#[test]
fn listed_counts_of_the_case() {
    hold_counts(&worked(), Capacities::unbranched(2), &[0, 1, 2], &[2, 1, 0]);
    hold_counts(&worked(), Capacities::unbranched(2), &[2, 0, 0, 1, 0], &[0, 2, 2, 1, 2]);
    hold_counts(&worked(), Capacities::unbranched(2), &[], &[]);
    hold_counts(&[], Capacities::unbranched(2), &[], &[]);
    hold_counts(&worked(), Capacities::unbranched(3), &[1; 65_535], &[1; 65_535]);
    let far = encode(&shapes::lines(300, 4095));
    hold_counts(&far, Capacities::unbranched(2), &[299, 0, 43], &[4094; 3]);
}

#[test]
fn listed_counts_refused() {
    let worked = worked();
    hold_refusal(&worked, Capacities::unbranched(5), &indices(&[9]), 3, [1, 0]);
    hold_refusal(&worked[1..], Capacities::unbranched(2), &indices(&[9]), 3, [2, 0]);
    for (len, counts) in [(1, 2), (1, 0), (3, 6), (3, 4), (2, 3), (2, 5), (2, 8), (2, 0), (0, 4)] {
        hold_refusal(&worked, Capacities::unbranched(2), &indices(&[0, 9])[..len], counts, [21, 0]);
    }
    hold_refusal(&worked, Capacities::unbranched(2), &[0; 131_072], 262_144, [21, 0]);
    hold_refusal(&worked, Capacities::unbranched(2), &[0; 131_071], 262_142, [21, 0]);
    hold_refusal(&worked, Capacities::unbranched(2), &indices(&[9, 0]), 7, [21, 0]);
    for absent in [3, 4, 5, 256, 4096, 65_535] {
        hold_refusal(&worked, Capacities::unbranched(2), &indices(&[2, 1, absent, 5]), 16, [20, 2]);
    }
    let mut longest = [0; 131_070];
    longest[131_068] = 3;
    hold_refusal(&worked, Capacities::unbranched(2), &longest, 262_140, [20, 65_534]);
    hold_refusal(&[], Capacities::unbranched(2), &indices(&[0]), 4, [20, 0]);
}

#[test]
fn map_case() {
    let mut area = vec![0xA5; 90];
    assert_eq!(map(&worked(), Capacities::unbranched(2), &[], &mut area), [0, 0, 8, 3, 3, 12, 50]);
    assert_eq!(area[..80], worked_mapped());
    assert_eq!(area[80..], [0xA5; 10]);
}

#[test]
fn map_case_area_and_capacity() {
    assert_eq!(
        map(&worked(), Capacities::unbranched(2), &[], &mut [0xA5; 80]),
        [0, 0, 8, 3, 3, 12, 50]
    );
    let mut short = [0xA5; 79];
    assert_eq!(map(&worked(), Capacities::unbranched(2), &[], &mut short), [10, 0, 0, 0, 0, 0, 0]);
    assert_eq!(short, [0xA5; 79]);
    assert_eq!(
        map(&worked(), Capacities::unbranched(5), &[], &mut [0xA5; 80]),
        [1, 0, 0, 0, 0, 0, 0]
    );
    assert_eq!(map(&[], Capacities::unbranched(2), &[], &mut []), [0; 7]);
}

/// The worked case with price lists: 1 to 11, one of 10 bytes, one with its first 0 at position 8.
#[test]
fn map_case_with_prices() {
    let rising: [u8; 11] = [1, 2, 3, 4, 5, 6, 7, 8, 9, 10, 11];
    let mut zero = rising;
    (zero[8], zero[10]) = (0, 0);
    for engine in [PLAIN, FAST, BY_A_PASS] {
        let hold = |prices: &[u8], answer: [u32; 7]| {
            let mut area = [0xA5; 90];
            let found = (engine.map)(&worked(), Capacities::unbranched(2), prices, &mut area);
            assert_eq!(found, answer, "{prices:?}");
            match answer[0] {
                0 => assert_eq!(area[..], [&worked_mapped()[..], &[0xA5; 10]].concat()),
                _ => assert_eq!(area, [0xA5; 90]),
            }
        };
        hold(&rising, [0, 0, 8, 3, 3, 27, 93]);
        hold(&[], [0, 0, 8, 3, 3, 12, 50]);
        hold(&[255; 11], [0, 0, 8, 3, 3, 4 * 255, 75]);
        hold(&rising[..10], [27, 0, 0, 0, 0, 0, 0]);
        hold(&zero, [28, 8, 0, 0, 0, 0, 0]);
    }
}

#[test]
fn too_many_records() {
    // 15 chains of 4,094 buffers and 30 records are over 60,000; 14 are not.
    let source = encode(&shapes::lines(15, 4095));
    assert_eq!(map(&source, Capacities::unbranched(2), &[], &mut []), [9, 0, 0, 0, 0, 0, 0]);
    let source = encode(&shapes::lines(14, 4095));
    let mut area = vec![0; 600_000];
    assert_eq!(
        map(&source, Capacities::unbranched(2), &[], &mut area)[..4],
        [0, 0, 28 + 14 * 4094, 14 * 4094]
    );
}

#[test]
fn verify_case() {
    let mapped = worked_mapped();
    assert_eq!(verify(&worked(), Capacities::unbranched(2), &mapped), [0, 0, 3]);
    let mut wrong = mapped.clone();
    wrong[24] = 7;
    wrong[26] = 5;
    assert_eq!(verify(&worked(), Capacities::unbranched(2), &wrong), [16, 2, 0]);
    let mut twice = mapped.clone();
    twice.extend(Record::buffer(1, 0).write());
    assert_eq!(verify(&worked(), Capacities::unbranched(2), &twice), [17, 0, 0]);
}

#[test]
fn waves_of_the_case() {
    let rows = [1, 1, 0, 1, 1, 0, 1, 1];
    let (mut state, mut outputs) = ([9; 16], [9; 8]);
    let areas = Run { row_count: 4, rows: &rows, state: &mut state, outputs: &mut outputs };
    assert_eq!(run(&worked(), Capacities::unbranched(2), &worked_mapped(), areas), [0, 0]);
    assert_eq!(outputs, [1, 1, 0, 0, 0, 1, 1, 1]);
    let mut stepped = [0; 16];
    for t in 0..7 {
        let row = if t < 4 { &rows[2 * t..2 * t + 2] } else { &[0, 0] };
        assert_eq!(
            step(&worked(), Capacities::unbranched(2), &worked_mapped(), row, &mut stepped),
            [0, 0]
        );
    }
    assert_eq!(stepped, state);
    for (t, row) in rows.chunks(2).enumerate() {
        let mut values = [9; 5];
        assert_eq!(evaluate(&worked(), row, &mut values), [0, 0]);
        assert_eq!(values[3..], outputs[2 * t..2 * t + 2]);
    }
}

#[test]
fn views_of_the_case() {
    let (source, mapped) = (worked(), worked_mapped());
    assert_eq!(record_view(&source, &mapped, 2), &source[20..30]);
    assert_eq!(record_view(&source, &mapped, 5), &mapped[50..60]);
    assert_eq!(record_view(&source, &mapped, 8), &[] as &[u8]);
    assert_eq!(record_view(&source, &mapped[..39], 3), &[] as &[u8]);
    assert_eq!(block_view(&source, Capacities::unbranched(2), &mapped, 0), &mapped[50..70]);
    assert_eq!(block_view(&source, Capacities::unbranched(2), &mapped, 1), &mapped[70..80]);
    assert_eq!(block_view(&source, Capacities::unbranched(2), &mapped[..79], 1), &[] as &[u8]);
    assert_eq!(block_view(&source, Capacities::unbranched(2), &mapped, 3), &[] as &[u8]);
    assert_eq!(block_view(&source, Capacities::unbranched(5), &mapped, 0), &[] as &[u8]);
    for b in [0, 4096, 65_537] {
        assert_eq!(block_view(&source, Capacities::new(2, b), &mapped, 0), &[] as &[u8]);
    }
    assert_eq!(block_view(&source, Capacities::new(2, 4095), &mapped, 1), &mapped[70..80]);
}
