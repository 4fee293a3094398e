//! Prices (specification 2.6): lists refused, and what mapped netlists cost.

use reference::capacities::{Capacities, MAX_INPUT_CAPACITY};
use reference::engine::{Engine, BY_A_PASS, FAST, PLAIN};
use reference::mapper::mapping;
use reference::prices::{junctions, Junctions};
use reference::record::*;
use reference::shapes;

const ENGINES: [Engine; 3] = [PLAIN, FAST, BY_A_PASS];
const RISING: [u8; 11] = [1, 2, 3, 4, 5, 6, 7, 8, 9, 10, 11];
/// Every price is another, in no order.
const APART: [u8; 11] = [11, 230, 23, 201, 47, 180, 250, 71, 150, 95, 120];

/// A source is refused with these capacities and this list, and an area of so many bytes stays.
fn hold_refused(source: &[u8], s: u32, b: u32, list: &[u8], len: usize, refusal: [u32; 2]) {
    for engine in ENGINES {
        let mut area = vec![0xA5; len];
        let answer = (engine.map)(source, Capacities::new(s, b), list, &mut area);
        let words = format!("s {s}, b {b}, list {list:?}, area {len}");
        assert_eq!(answer, [refusal[0], refusal[1], 0, 0, 0, 0, 0], "{words}");
        assert!(area.iter().all(|&byte| byte == 0xA5), "{words}");
    }
}

/// Lists of other lengths, with no price of 0, with one, and with all of them 0.
#[test]
fn lengths() {
    let source = encode(&shapes::worked());
    for len in (1..=600).chain([65_535, 65_536, 65_547]).filter(|&len| len != 11) {
        let mut one = vec![1; len];
        one[len / 2] = 0;
        for list in [vec![1; len], one, vec![0; len]] {
            hold_refused(&source, 2, 1, &list, 80, [27, 0]);
        }
    }
}

/// A price of 0 at every set of positions: the first is the place.
#[test]
fn zeros() {
    let source = encode(&shapes::worked());
    for set in 1_u32..1 << 11 {
        let list: Vec<u8> = (0..11).map(|at| RISING[at] * u8::from(set >> at & 1 == 0)).collect();
        hold_refused(&source, 4, 4095, &list, 80, [28, set.trailing_zeros()]);
    }
}

/// 1, then 26, then 27, then 28, then 2 and all others.
#[test]
fn order() {
    let worked = encode(&shapes::worked());
    let mut kind = worked.clone();
    kind[0] = 5;
    let treeless = encode(&shapes::net(&[1, 1]));
    let many = encode(&shapes::lines(15, 4095));
    let sources = [&worked[..], &worked[1..], &kind, &treeless, &many, &[]];
    let mut zero = RISING;
    zero[5] = 0;
    let lists = [(&RISING[..10], [27, 0]), (&[0; 12][..], [27, 0]), (&zero[..], [28, 5])];
    for (list, own) in lists {
        for source in sources {
            for (s, b, refusal) in
                [(5, 1, [1, 0]), (0, 0, [1, 0]), (2, 0, [26, 0]), (3, 4096, [26, 0]), (2, 1, own)]
            {
                hold_refused(source, s, b, list, 7, refusal);
            }
        }
    }
    for list in [&RISING[..], &[]] {
        hold_refused(&worked, 5, 0, list, 80, [1, 0]);
        hold_refused(&worked, 2, 0, list, 80, [26, 0]);
        hold_refused(&worked[1..], 2, 1, list, 80, [2, 0]);
        hold_refused(&kind, 2, 1, list, 80, [4, 0]);
        hold_refused(&treeless, 2, 1, list, 80, [8, 0]);
        hold_refused(&many, 2, 1, list, 80, [9, 0]);
        hold_refused(&worked, 2, 1, list, 79, [10, 0]);
    }
}

/// What a source costs with the list 1 to 11, in all and for its buffers, and the share.
fn hold_cost(source: &[Record], s: u32, b: u32, [all, buffers, share]: [u32; 3]) {
    let (source, capacities) = (encode(source), Capacities::new(s, b));
    let records = mapping(&source, capacities).expect("a tree on every net").records;
    let bytes = encode(&records);
    let sums = Junctions { all: all as usize, buffers: buffers as usize };
    assert_eq!(junctions(&RISING, &bytes), sums, "s {s}, b {b}");
    for engine in ENGINES {
        let mut area = vec![0; bytes.len()];
        let answer = (engine.map)(&source, capacities, &RISING, &mut area);
        assert_eq!([answer[0], answer[5], answer[6]], [0, all, share], "s {s}, b {b}");
        assert!(area == bytes, "s {s}, b {b}");
    }
}

/// Netlists priced by hand: with the list 1 to 11 an unfed AND costs 1, a buffer that feeds k slots
/// 7 + k.
#[test]
fn by_hand() {
    // P7: three sinks at distance 3, all of one MAJ. Two buffers at distance 2 feed 2 and 1, the one
    // at distance 1 feeds 2.
    hold_cost(&shapes::sinks_at(3, 3), 2, 1, [5 + 9 + 8 + 9, 26, 84]);
    // A MAJ and an output: 3 and 1 at distance 2, 2 at distance 1.
    hold_cost(&shapes::sinks_at(4, 3), 3, 1, [5 + 10 + 8 + 9, 27, 84]);
    // Two MAJ and an output on an input that feeds two buffers, of 4 and 3.
    hold_cost(&shapes::sinks_at(7, 2), 4, 2, [2 * 5 + 11 + 10, 21, 68]);
    // The same sinks with s = 3: three buffers, of 3, 3 and 1.
    hold_cost(&shapes::sinks_at(7, 2), 3, 3, [2 * 5 + 10 + 10 + 8, 28, 74]);
    // P8, from the farthest: 2 and 1, 2, 1, then 2 with the near sink; four ANDs, each with another
    // input at the same distance, whose 1 + 4 + 4 + 4 buffers feed one slot each.
    hold_cost(&shapes::twins(&[2, 5, 5, 5], false), 2, 1, [4 + 43 + 13 * 8, 147, 97]);
    // An AND that feeds one slot, two ORs that feed none. The buffers of the first input and of the
    // AND feed two slots; of the three of the second input the farthest feeds two.
    hold_cost(&shapes::on_a_gate(2, 2), 2, 1, [2 + 2 * 3 + 9 + 9 + 9 + 8 + 8, 43, 84]);
    // No gates and no buffers.
    hold_cost(&shapes::lines(3, 1), 2, 1, [0, 0, 0]);
    hold_cost(&[], 4, 4095, [0, 0, 0]);
}

/// Each of the prices that the mapper's netlists can have, alone: the list is 1 but at one position.
#[test]
fn each_position() {
    let source = encode(&shapes::each_price());
    // How many records have the price of each position.
    let number = [1, 1, 1, 1, 1, 1, 0, 3, 4, 2, 3];
    let buffers: u32 = number[6..].iter().sum();
    let all: u32 = number.iter().sum();
    for engine in ENGINES {
        for (position, &records) in number.iter().enumerate() {
            let mut list = [1; 11];
            list[position] = 255;
            let answer = (engine.map)(&source, Capacities::new(4, 2), &list, &mut vec![0; 2000]);
            assert_eq!([answer[0], answer[3]], [0, buffers], "{position}");
            assert_eq!(answer[5], all + 254 * records, "{position}");
        }
    }
}

/// A buffer that feeds nothing, which the mapper does not write, has the price of position 6.
#[test]
fn idle_buffers() {
    let padded = encode(&shapes::padded(&shapes::worked_mapped(), 2, 10));
    // Buffer 8 hangs on 7, which feeds a slot of the AND too, and 9 on 8.
    let records = decode(&padded);
    assert_eq!((records[8].slots[0], records[9].slots[0]), (7, 8));
    // The AND, then buffers 5 to 9: they feed 2, 1, 2, 1 and 0.
    let sums = junctions(&RISING, &padded);
    assert_eq!(sums, Junctions { all: 2 + 9 + 8 + 9 + 8 + 7, buffers: 41 });
    assert_eq!(junctions(&[], &padded), Junctions { all: 6 + 5 * 2, buffers: 10 });
}

/// The list decides JJs and share, and nothing else.
#[test]
fn nothing_else() {
    let sources =
        [shapes::worked(), shapes::chains(40), shapes::lines(5, 30), shapes::fans(30, 4), vec![]];
    for source in sources {
        for engine in ENGINES {
            let mapped = |list: &[u8]| {
                let mut area = vec![0xA5; 6000];
                let capacities = Capacities::new(2, 4);
                let answer = (engine.map)(&encode(&source), capacities, list, &mut area);
                assert_eq!(answer[0], 0);
                (answer[2..5].to_vec(), area)
            };
            let own = mapped(&[]);
            for list in [RISING, APART, [1; 11], [255; 11]] {
                assert!(mapped(&list) == own, "{list:?}");
            }
        }
    }
}

/// The most that the prices can come to: 60,000 records, of which one input costs nothing.
#[test]
fn largest_totals() {
    let mut source = shapes::inputs(1);
    source.resize(30, Record::new(AND, 0, 1, &[0; 2]));
    // Fifteen of the gates have a chain of 3,997 buffers below another gate.
    source.extend((1..=15).map(|gate| Record::new(OR, 0, 3999, &[gate; 2])));
    let capacities = Capacities::new(2, MAX_INPUT_CAPACITY);
    let dear = |list: &[u8]| {
        let answers = ENGINES
            .map(|engine| (engine.map)(&encode(&source), capacities, list, &mut vec![0; 600_000]));
        assert!(answers.iter().all(|answer| *answer == answers[0]), "{answers:?}");
        answers[0]
    };
    assert_eq!(dear(&[255; 11]), [0, 0, 60_000, 59_955, 0, 15_299_745, 100]);
    assert_eq!(dear(&[]), [0, 0, 60_000, 59_955, 0, 44 * 6 + 2 * 59_955, 100]);
    let lines = encode(&shapes::lines(15, 3999));
    for engine in ENGINES {
        let answer = (engine.map)(&lines, capacities, &[255; 11], &mut vec![0; 600_000]);
        assert_eq!(answer, [0, 0, 60_000, 59_970, 3999, 15_292_350, 100]);
    }
}

/// A gate that feeds nothing and a buffer that feeds one slot, at all prices from 1 to 255: the share
/// against twice the percent, rounded down.
#[test]
fn shares_of_two_prices() {
    let source = encode(&shapes::priced(1, 1));
    let mut halves = [0, 0];
    for (gate, buffer) in (1..=255).flat_map(|gate| (1..=255).map(move |buffer| (gate, buffer))) {
        let mut list = [200; 11];
        (list[0], list[7]) = (gate, buffer);
        let (part, whole) = (200 * u32::from(buffer), u32::from(gate) + u32::from(buffer));
        let (twice, left) = (part / whole, part % whole > 0);
        let half = twice % 2 == 1 && !left;
        let share = match twice % 2 {
            1 if half => twice / 2 + twice / 2 % 2,
            odd => twice / 2 + odd,
        };
        halves[(twice / 2 % 2) as usize] += usize::from(half);
        for engine in ENGINES {
            let answer = (engine.map)(&source, Capacities::unbranched(2), &list, &mut [0; 60]);
            assert_eq!(answer, [0, 0, 6, 1, 2, whole, share], "{gate}, {buffer}");
        }
    }
    assert!(halves.iter().all(|&met| met > 10), "{halves:?}");
}
