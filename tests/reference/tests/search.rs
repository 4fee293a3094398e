//! The recursion and the formula against the search over all legal trees.

use std::ops::RangeInclusive;

use reference::net::{fewest, fewest_by_formula};
use reference::search::fewest_of_all_trees;

/// Every multiset of `sinks` distances from 1 to `most`.
fn nets(sinks: usize, most: usize) -> Vec<Vec<usize>> {
    if sinks == 0 {
        return vec![Vec::new()];
    }
    let mut all = Vec::new();
    for net in nets(sinks - 1, most) {
        for distance in net.last().copied().unwrap_or(1)..=most {
            let mut longer = net.clone();
            longer.push(distance);
            all.push(longer);
        }
    }
    all
}

/// For each capacity of the driver given; answers how many nets have a tree and how many have none.
fn agree(sinks: usize, most: usize, drivers: RangeInclusive<usize>) -> (usize, usize) {
    let (mut trees, mut none) = (0, 0);
    for net in nets(sinks, most) {
        for (s, driver) in (2..=4).flat_map(|s| drivers.clone().map(move |driver| (s, driver))) {
            let found = fewest_of_all_trees(&net, s, driver);
            let words = format!("s {s}, driver {driver}, distances {net:?}");
            assert_eq!(fewest(&net, s, driver), found, "{words}");
            assert_eq!(fewest_by_formula(&net, s, driver), found, "{words}");
            *if found.is_some() { &mut trees } else { &mut none } += 1;
        }
    }
    (trees, none)
}

#[test]
fn few_sinks() {
    for sinks in 0..=4 {
        for driver in 1..=5 {
            let (trees, none) = agree(sinks, 4, driver..=driver);
            assert!(trees > 0 && (none > 0) == (sinks > driver), "{sinks} sinks, driver {driver}");
        }
    }
}

#[test]
fn more_sinks() {
    for driver in 1..=5 {
        let (trees, none) = agree(6, 3, driver..=driver);
        assert!(trees > 0 && none > 0, "driver {driver}");
    }
    assert!(agree(5, 4, 1..=5).0 > 0);
}

#[test]
fn formula_on_longer_nets() {
    let mut random = reference::random::Random::new(1);
    let (mut trees, mut none) = (0, 0);
    for _ in 0..20_000 {
        let sinks = random.below(40);
        let net: Vec<usize> = (0..sinks).map(|_| 1 + random.below(12)).collect();
        let far: Vec<usize> = net.iter().map(|distance| distance + random.below(14)).collect();
        let driver = if random.one_in(2) { 1 } else { random.between(2, 40) };
        for s in 2..=4 {
            let found = fewest(&far, s, driver);
            let words = format!("s {s}, driver {driver}, distances {far:?}");
            assert_eq!(found, fewest_by_formula(&far, s, driver), "{words}");
            *if found.is_some() { &mut trees } else { &mut none } += 1;
        }
    }
    assert!(trees > 100 && none > 100);
}
