//! The condition of a row of an answer to a question on lists with gaps.

use crate::circuits::comparison;
use crate::store::{place_of, reached, Cell, Find, Instance, Random, Store, ALWAYS, NEVER};

#[derive(Clone)]
struct Line {
    node: u64,
    cells: Vec<Cell>,
}

enum Question {
    List(usize),
    /// The lines whose two columns are equal.
    Same(usize, usize, Box<Question>),
    Columns(Vec<usize>, Box<Question>),
    Join(Box<Question>, Box<Question>),
    Without(Box<Question>, Box<Question>),
}

use Question::*;

/// The answer's lines, with the nodes that asking lays and uses; with `Find::Standing` equal ones only once.
fn ask(question: &Question, lists: &[Vec<Line>], store: &mut Store) -> Vec<Line> {
    match question {
        List(t) => lists[*t].clone(),
        Same(a, b, q) => ask(q, lists, store)
            .into_iter()
            .map(|l| tested(l, *a, *b, store))
            .collect(),
        Columns(columns, q) => ask(q, lists, store)
            .into_iter()
            .map(|l| cut(l, columns))
            .collect(),
        Join(p, q) => joined(&ask(p, lists, store), &ask(q, lists, store), store),
        Without(p, q) => {
            let (lines, others) = (ask(p, lists, store), ask(q, lists, store));
            lines.into_iter().map(|l| less(l, &others, store)).collect()
        }
    }
}

fn tested(line: Line, a: usize, b: usize, store: &mut Store) -> Line {
    let same = store.equal(line.cells[a], line.cells[b]);
    Line {
        node: store.both(line.node, same),
        cells: line.cells,
    }
}

fn cut(line: Line, columns: &[usize]) -> Line {
    Line {
        node: line.node,
        cells: columns.iter().map(|&a| line.cells[a]).collect(),
    }
}

fn joined(lines: &[Line], others: &[Line], store: &mut Store) -> Vec<Line> {
    let mut out = Vec::new();
    for line in lines {
        for other in others {
            let cells = [line.cells.as_slice(), other.cells.as_slice()].concat();
            out.push(Line {
                node: store.both(line.node, other.node),
                cells,
            });
        }
    }
    out
}

fn less(line: Line, others: &[Line], store: &mut Store) -> Line {
    let mut node = line.node;
    for other in others {
        let same = equal_cells(&line.cells, &other.cells, store);
        let there = store.both(other.node, same);
        let not_there = store.not(there);
        node = store.both(node, not_there);
    }
    Line {
        node,
        cells: line.cells,
    }
}

fn equal_cells(cells: &[Cell], others: &[Cell], store: &mut Store) -> u64 {
    let mut all = ALWAYS;
    for (&a, &b) in cells.iter().zip(others).rev() {
        let same = store.equal(a, b);
        all = store.both(same, all);
    }
    all
}

fn agrees(line: &Line, row: &[u64]) -> bool {
    line.cells.iter().zip(row).all(|(cell, &n)| match cell {
        Cell::Number(m) => *m == n,
        Cell::Gap(_) => true,
    })
}

/// That one of the lines that agree with a row is there and has its numbers.
fn shows(lines: &[Line], row: &[u64], store: &mut Store) -> u64 {
    let numbers: Vec<Cell> = row.iter().map(|&n| Cell::Number(n)).collect();
    let mut some = NEVER;
    for line in lines.iter().rev().filter(|line| agrees(line, row)) {
        let same = equal_cells(&line.cells, &numbers, store);
        let there = store.both(line.node, same);
        some = store.either(there, some);
    }
    some
}

/// A without (B without (C without D)) over one column, A without (B without C) over two, at a cost of at most `size`. Asked about is
/// the row with the most lines that decide it.
pub fn deep(
    seed: u64,
    gaps: u64,
    numbers: u64,
    size: usize,
    columns: usize,
    find: Find,
) -> Instance {
    let mut random = Random(seed);
    let mut store = Store::new(find);
    let depth = if columns == 1 { 3 } else { 2 };
    let pairs = size / (depth * (2 * columns + 3));
    let lines = (1..=64).rev().find(|n| n * n <= pairs).unwrap_or(1);
    let mut lists = Vec::new();
    for _ in 0..=depth {
        lists.push(
            (0..lines)
                .map(|_| line(&mut store, &mut random, gaps, numbers, columns))
                .collect(),
        );
    }
    let mut question = List(depth);
    for t in (0..depth).rev() {
        question = Without(Box::new(List(t)), Box::new(question));
    }
    let answer = ask(&question, &lists, &mut store);
    let row = rows(columns, numbers)
        .into_iter()
        .max_by_key(|row| answer.iter().filter(|l| agrees(l, row)).count())
        .unwrap();
    let shows = shows(&answer, &row, &mut store);
    Instance {
        nodes: store.nodes,
        known: ALWAYS,
        shows,
    }
}

/// A line whose cells are gaps or numbers from 10 on, under a condition of one or two comparisons.
fn line(store: &mut Store, random: &mut Random, gaps: u64, numbers: u64, columns: usize) -> Line {
    let cells = (0..columns).map(|_| match random.below(gaps + numbers) {
        k if k < gaps => Cell::Gap(k),
        k => Cell::Number(10 + k - gaps),
    });
    let cells = cells.collect();
    let a = comparison(store, random, gaps, numbers);
    let b = comparison(store, random, gaps, numbers);
    let not_b = store.not(b);
    let node = if random.below(4) == 0 {
        a
    } else {
        store.either(a, not_b)
    };
    Line { node, cells }
}

/// All rows of numbers from 10 on.
fn rows(columns: usize, numbers: u64) -> Vec<Vec<u64>> {
    let mut rows = vec![vec![]];
    for _ in 0..columns {
        rows = rows
            .iter()
            .flat_map(|row| (0..numbers).map(move |k| [row.as_slice(), &[10 + k]].concat()))
            .collect();
    }
    rows
}

/// Baptisms (child, father) and marriages (man, woman), one cell in ten a gap; asked is for child and woman where the father is the
/// man, at a cost of at most `size`, and about the first row that 6 gaps and 8 numbers decide.
pub fn parish(seed: u64, gaps: u64, men: u64, size: usize) -> Instance {
    let lines = (1..=64).rev().find(|n| n * n * 4 <= size).unwrap_or(1) as u64;
    let mut random = Random(seed);
    let mut store = Store::new(Find::Nothing);
    let (lists, known) = registers(&mut store, &mut random, gaps, men, lines);
    let question = Columns(
        vec![0, 3],
        Box::new(Same(
            1,
            2,
            Box::new(Join(Box::new(List(0)), Box::new(List(1)))),
        )),
    );
    let answer = ask(&question, &lists, &mut store);
    for line in &answer {
        let number = |cell: &Cell| match cell {
            Cell::Number(n) => *n,
            Cell::Gap(g) => 2000 + g % men,
        };
        let row: Vec<u64> = line.cells.iter().map(number).collect();
        let before = store.nodes.len();
        let shows = shows(&answer, &row, &mut store);
        let (named_gaps, named_numbers) = named(&store, &[known, shows], &row);
        if (2..=6).contains(&named_gaps) && named_numbers <= 8 {
            return Instance {
                nodes: store.nodes,
                known,
                shows,
            };
        }
        store.nodes.truncate(before);
    }
    panic!("no row is decided by 6 gaps and 8 numbers: take another seed");
}

/// The two lists, and what is known: of up to three fathers that they are one of two men, and that some are not the same.
fn registers(
    store: &mut Store,
    random: &mut Random,
    gaps: u64,
    men: u64,
    lines: u64,
) -> (Vec<Vec<Line>>, u64) {
    let mut used = 0;
    let mut cell = |number: u64, random: &mut Random| {
        if random.below(10) != 0 {
            return Cell::Number(number);
        }
        if used > 0 && (random.below(4) == 0 || used == gaps) {
            return Cell::Gap(random.below(used));
        }
        used += 1;
        Cell::Gap(used - 1)
    };
    let (mut baptisms, mut marriages) = (Vec::new(), Vec::new());
    for i in 0..lines {
        let father = cell(1000 + random.below(men), random);
        baptisms.push(Line {
            node: ALWAYS,
            cells: vec![Cell::Number(1 + i), father],
        });
    }
    for i in 0..lines {
        let man = cell(1000 + i % men, random);
        let woman = cell(2000 + random.below(men), random);
        marriages.push(Line {
            node: ALWAYS,
            cells: vec![man, woman],
        });
    }
    let mut known = ALWAYS;
    let truth: Vec<u64> = (0..used.min(3))
        .map(|_| 1000 + random.below(men.min(3)))
        .collect();
    for (g, &man) in truth.iter().enumerate() {
        let gap = Cell::Gap(g as u64);
        let (this, other) = (
            store.equal(gap, Cell::Number(man)),
            store.equal(gap, Cell::Number(1000 + random.below(men.min(3)))),
        );
        let one = store.either(this, other);
        known = store.both(known, one);
        if g > 0 && truth[g - 1] != man {
            let same = store.equal(Cell::Gap(g as u64 - 1), gap);
            let differ = store.not(same);
            known = store.both(known, differ);
        }
    }
    (vec![baptisms, marriages], known)
}

/// How many gaps and numbers some conditions and a row name.
fn named(store: &Store, roots: &[u64], row: &[u64]) -> (usize, usize) {
    let (mut gaps, mut numbers) = (Vec::new(), Vec::new());
    for &n in row {
        place_of(&mut numbers, n);
    }
    for (node, reached) in store.nodes.iter().zip(reached(&store.nodes, roots)) {
        if let (true, [2, s, m, t, n]) = (reached, *node) {
            for (tag, n) in [(s, m), (t, n)] {
                place_of(if tag == 0 { &mut numbers } else { &mut gaps }, n);
            }
        }
    }
    (gaps.len(), numbers.len())
}
