//! Conditions that are hard to decide, or look it.

use crate::store::{Cell, Find, Instance, Random, Store, ALWAYS, NEVER};

/// A comparison of a gap with one of the numbers from 10 on, or with another gap.
pub fn comparison(store: &mut Store, random: &mut Random, gaps: u64, numbers: u64) -> u64 {
    let gap = random.below(gaps);
    let k = random.below(numbers + gaps - 1);
    if k < numbers {
        return store.equal(Cell::Gap(gap), Cell::Number(10 + k));
    }
    let other = if k - numbers < gap {
        k - numbers
    } else {
        k - numbers + 1
    };
    store.equal(Cell::Gap(gap.min(other)), Cell::Gap(gap.max(other)))
}

/// That all gaps are different from one another and from the numbers: met only by the last filling that a search tries.
fn all_new(store: &mut Store, gaps: u64, numbers: u64) -> u64 {
    let mut all = ALWAYS;
    for g in 0..gaps {
        let cells = (0..numbers)
            .map(|k| Cell::Number(10 + k))
            .chain((0..g).map(Cell::Gap));
        for other in cells.collect::<Vec<_>>() {
            let same = store.equal(Cell::Gap(g), other);
            let differ = store.not(same);
            all = store.both(all, differ);
        }
    }
    all
}

/// Two parity chains over the same comparisons in different order: never met, and nothing can be ruled out before the last gap.
/// With `last` it is met by the last filling alone.
pub fn parity(seed: u64, gaps: u64, numbers: u64, size: usize, last: bool) -> Instance {
    let mut random = Random(seed);
    let mut store = Store::new(Find::Standing);
    let mut atoms: Vec<u64> = (0..size / 8)
        .map(|_| comparison(&mut store, &mut random, gaps, numbers))
        .collect();
    let first = chain(&mut store, &atoms);
    for i in (1..atoms.len()).rev() {
        atoms.swap(i, random.below(i as u64 + 1) as usize);
    }
    let second = chain(&mut store, &atoms);
    let mut shows = store.differ(first, second);
    if last {
        let new = all_new(&mut store, gaps, numbers);
        shows = store.either(shows, new);
    }
    Instance {
        nodes: store.nodes,
        known: ALWAYS,
        shows,
    }
}

/// That an odd number of the conditions hold.
fn chain(store: &mut Store, atoms: &[u64]) -> u64 {
    let mut odd = atoms[0];
    for &atom in &atoms[1..] {
        odd = store.differ(odd, atom);
    }
    odd
}

/// Clauses that each forbid a choice for three or four gaps, until nothing is left; with `last` the last filling is left.
pub fn nogoods(seed: u64, gaps: u64, numbers: u64, size: usize, last: bool) -> Instance {
    let mut random = Random(seed);
    let mut store = Store::new(Find::Standing);
    let mut shows = ALWAYS;
    while store.nodes.len() < size {
        let (clause, spares_last) = clause(&mut store, &mut random, gaps, numbers);
        if spares_last || !last {
            shows = store.both(shows, clause);
        }
    }
    if !last {
        let new = all_new(&mut store, gaps, numbers);
        let not_new = store.not(new);
        shows = store.both(shows, not_new);
    }
    Instance {
        nodes: store.nodes,
        known: ALWAYS,
        shows,
    }
}

/// One of three or four comparisons, most of them negated; and whether the filling with all gaps new meets it.
fn clause(store: &mut Store, random: &mut Random, gaps: u64, numbers: u64) -> (u64, bool) {
    let mut clause = None;
    let mut spares_last = false;
    for _ in 0..3 + random.below(2) {
        let mut literal = comparison(store, random, gaps, numbers);
        if random.below(8) != 0 {
            literal = store.not(literal);
            spares_last = true;
        }
        clause = Some(clause.map_or(literal, |c| store.either(c, literal)));
    }
    (clause.unwrap(), spares_last)
}

/// A random circuit against its twin that is built of other gates and says the opposite: never met.
pub fn twins(seed: u64, gaps: u64, numbers: u64, size: usize) -> Instance {
    let mut random = Random(seed);
    let mut store = Store::new(Find::Nothing);
    let (mut says, mut denies) = (Vec::new(), Vec::new());
    for _ in 0..64 {
        let atom = comparison(&mut store, &mut random, gaps, numbers);
        says.push(atom);
        denies.push(store.not(atom));
    }
    while store.nodes.len() + 64 < size {
        let mut recent = || says.len() - 1 - random.below(64) as usize;
        let (i, j, k) = (recent(), recent(), recent());
        // one of two conditions, chosen by a third: so the circuit stays balanced
        let (a, b) = (store.both(says[i], says[j]), store.both(denies[i], says[k]));
        let (c, d) = (
            store.either(denies[i], denies[j]),
            store.either(says[i], denies[k]),
        );
        says.push(store.either(a, b));
        denies.push(store.both(c, d));
    }
    let mut shows = NEVER;
    for i in says.len() - 16..says.len() {
        let met = store.both(says[i], denies[i]);
        shows = store.either(shows, met);
    }
    Instance {
        nodes: store.nodes,
        known: ALWAYS,
        shows,
    }
}
