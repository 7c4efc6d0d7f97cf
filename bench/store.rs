//! Conditions as nodes of a store, in the text that decide_file reads.

use std::collections::HashMap;
use std::fmt::Write;

/// Kind, and what the kind needs: docs/FORMATS.md has the table.
pub type Node = [u64; 5];

#[derive(Clone, Copy)]
pub enum Cell {
    Number(u64),
    Gap(u64),
}

impl Cell {
    fn numbers(self) -> (u64, u64) {
        match self {
            Cell::Number(n) => (0, n),
            Cell::Gap(g) => (1, g),
        }
    }

    fn of(tag: u64, n: u64) -> Cell {
        if tag == 0 {
            Cell::Number(n)
        } else {
            Cell::Gap(n)
        }
    }
}

/// Whether a node that stands already is used again.
#[derive(Clone, Copy, PartialEq)]
pub enum Find {
    Standing,
    Nothing,
}

pub struct Store {
    pub nodes: Vec<Node>,
    find: Find,
    places: HashMap<Node, u64>,
}

/// The first two nodes of every store.
pub const ALWAYS: u64 = 0;
pub const NEVER: u64 = 1;

impl Store {
    pub fn new(find: Find) -> Store {
        Store {
            nodes: vec![[0, 0, 0, 0, 0], [1, 0, 0, 0, 0]],
            find,
            places: HashMap::new(),
        }
    }

    fn add(&mut self, node: Node) -> u64 {
        if self.find == Find::Standing {
            if let Some(&place) = self.places.get(&node) {
                return place;
            }
            self.places.insert(node, self.nodes.len() as u64);
        }
        self.nodes.push(node);
        self.nodes.len() as u64 - 1
    }

    pub fn equal(&mut self, a: Cell, b: Cell) -> u64 {
        let ((s, m), (t, n)) = (a.numbers(), b.numbers());
        self.add([2, s, m, t, n])
    }

    pub fn not(&mut self, a: u64) -> u64 {
        self.add([3, a, 0, 0, 0])
    }

    pub fn both(&mut self, a: u64, b: u64) -> u64 {
        self.add([4, a, b, 0, 0])
    }

    pub fn either(&mut self, a: u64, b: u64) -> u64 {
        self.add([5, a, b, 0, 0])
    }

    /// That one of two conditions holds and the other does not.
    pub fn differ(&mut self, a: u64, b: u64) -> u64 {
        let some = self.either(a, b);
        let all = self.both(a, b);
        let not_all = self.not(all);
        self.both(some, not_all)
    }
}

/// What is asked: whether some filling meets what is known and what is shown, and whether some meets the first and not the second.
pub struct Instance {
    pub nodes: Vec<Node>,
    pub known: u64,
    pub shows: u64,
}

impl Instance {
    pub fn text(&self) -> String {
        let mut out = String::new();
        let count = self.nodes.len();
        writeln!(
            out,
            "known {}\nshows {}\nnodes {count}",
            self.known, self.shows
        )
        .unwrap();
        for [kind, a, b, c, d] in &self.nodes {
            writeln!(out, "{kind} {a} {b} {c} {d}").unwrap();
        }
        out
    }

    pub fn parse(text: &str) -> Option<Instance> {
        let mut words = text.split_ascii_whitespace();
        let mut named = |name| {
            if words.next()? == name {
                words.next()?.parse().ok()
            } else {
                None
            }
        };
        let (known, shows, count): (u64, u64, usize) =
            (named("known")?, named("shows")?, named("nodes")? as usize);
        let numbers: Vec<u64> = words.map(|w| w.parse().ok()).collect::<Option<_>>()?;
        let nodes: Vec<Node> = numbers
            .chunks_exact(5)
            .map(|c| [c[0], c[1], c[2], c[3], c[4]])
            .collect();
        if nodes.len() == count {
            Some(Instance {
                nodes,
                known,
                shows,
            })
        } else {
            None
        }
    }

    /// The nodes that are reached from what is known and from what is shown, in order, with gaps and numbers by their places.
    pub fn cone(&self) -> Cone {
        let reached = reached(&self.nodes, &[self.known, self.shows]);
        let mut cone = Cone {
            gates: Vec::new(),
            known: 0,
            shows: 0,
            gaps: Vec::new(),
            numbers: Vec::new(),
        };
        let mut place = vec![0; reached.len()];
        for i in 0..reached.len() {
            if reached[i] {
                place[i] = cone.gates.len();
                let gate = cone.gate(&self.nodes[i], &place);
                cone.gates.push(gate);
            }
        }
        cone.known = place[self.known as usize];
        cone.shows = place[self.shows as usize];
        cone
    }
}

/// Which nodes some conditions are made of.
pub fn reached(nodes: &[Node], roots: &[u64]) -> Vec<bool> {
    let mut reached = vec![false; nodes.len()];
    for &root in roots {
        reached[root as usize] = true;
    }
    for i in (0..nodes.len()).rev() {
        if reached[i] && nodes[i][0] >= 3 {
            reached[nodes[i][1] as usize] = true;
        }
        if reached[i] && nodes[i][0] >= 4 {
            reached[nodes[i][2] as usize] = true;
        }
    }
    reached
}

#[derive(Clone, Copy)]
pub enum Gate {
    Always,
    Never,
    /// A gap and a number, by their places; two gaps.
    Is(usize, usize),
    Same(usize, usize),
    Not(usize),
    Both(usize, usize),
    Either(usize, usize),
}

pub struct Cone {
    pub gates: Vec<Gate>,
    pub known: usize,
    pub shows: usize,
    pub gaps: Vec<u64>,
    pub numbers: Vec<u64>,
}

impl Cone {
    fn gate(&mut self, node: &Node, place: &[usize]) -> Gate {
        let at = |k: usize| place[node[k] as usize];
        match node[0] {
            0 => Gate::Always,
            1 => Gate::Never,
            2 => self.comparison(Cell::of(node[1], node[2]), Cell::of(node[3], node[4])),
            3 => Gate::Not(at(1)),
            4 => Gate::Both(at(1), at(2)),
            _ => Gate::Either(at(1), at(2)),
        }
    }

    fn comparison(&mut self, a: Cell, b: Cell) -> Gate {
        match (a, b) {
            (Cell::Number(m), Cell::Number(n)) => {
                if m == n {
                    Gate::Always
                } else {
                    Gate::Never
                }
            }
            (Cell::Gap(g), Cell::Number(n)) | (Cell::Number(n), Cell::Gap(g)) => {
                Gate::Is(place_of(&mut self.gaps, g), place_of(&mut self.numbers, n))
            }
            (Cell::Gap(g), Cell::Gap(h)) if g == h => Gate::Always,
            (Cell::Gap(g), Cell::Gap(h)) => {
                Gate::Same(place_of(&mut self.gaps, g), place_of(&mut self.gaps, h))
            }
        }
    }
}

/// Where a number stands in a list of numbers, to which it is added if it is new.
pub fn place_of(list: &mut Vec<u64>, n: u64) -> usize {
    list.iter().position(|&m| m == n).unwrap_or_else(|| {
        list.push(n);
        list.len() - 1
    })
}

/// Numbers that look drawn by lot.
pub struct Random(pub u64);

impl Random {
    pub fn below(&mut self, n: u64) -> u64 {
        self.0 = self.0.wrapping_add(0x9e3779b97f4a7c15);
        let mut z = self.0;
        z = (z ^ (z >> 30)).wrapping_mul(0xbf58476d1ce4e5b9);
        z = (z ^ (z >> 27)).wrapping_mul(0x94d049bb133111eb);
        (z ^ (z >> 31)) % n
    }
}
