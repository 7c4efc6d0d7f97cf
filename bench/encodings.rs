//! The same question for other programs. A gap takes one of the numbers or one of as many others as there are gaps; of the others
//! only the first that no earlier gap has taken, so that fillings that differ in names alone are not tried twice.

use crate::store::{Cone, Gate};
use std::fmt::Write;

/// Whether a filling is wanted that shows the row, or one that lacks it.
#[derive(Clone, Copy, PartialEq)]
pub enum Want {
    Shows,
    Lacks,
}

/// SMT-LIB over a sort of which only equality is known, each node a named Bool.
pub fn smt(cone: &Cone, want: Want) -> String {
    let mut out = String::from("(set-logic QF_UF)\n(declare-sort U 0)\n");
    for g in 0..cone.gaps.len() {
        writeln!(out, "(declare-fun g{g} () U)").unwrap();
    }
    for k in 0..cone.numbers.len() {
        writeln!(out, "(declare-fun k{k} () U)").unwrap();
    }
    if cone.numbers.len() > 1 {
        let all: Vec<String> = (0..cone.numbers.len()).map(|k| format!("k{k}")).collect();
        writeln!(out, "(assert (distinct {}))", all.join(" ")).unwrap();
    }
    for (i, gate) in cone.gates.iter().enumerate() {
        let says = match *gate {
            Gate::Always => "true".to_string(),
            Gate::Never => "false".to_string(),
            Gate::Is(g, k) => format!("(= g{g} k{k})"),
            Gate::Same(g, h) => format!("(= g{g} g{h})"),
            Gate::Not(a) => format!("(not n{a})"),
            Gate::Both(a, b) => format!("(and n{a} n{b})"),
            Gate::Either(a, b) => format!("(or n{a} n{b})"),
        };
        writeln!(out, "(declare-fun n{i} () Bool)\n(assert (= n{i} {says}))").unwrap();
    }
    let shows = match want {
        Want::Shows => format!("n{}", cone.shows),
        Want::Lacks => format!("(not n{})", cone.shows),
    };
    writeln!(out, "(assert (and n{} {shows}))\n(check-sat)", cone.known).unwrap();
    out
}

/// A program for clingo, with v(g,x) for gap g that takes value x.
pub fn clingo(cone: &Cone, want: Want) -> String {
    let (gaps, numbers) = (cone.gaps.len(), cone.numbers.len());
    let mut out = String::new();
    for g in 0..gaps {
        writeln!(out, "1{{v({g},0..{})}}1.", numbers + g).unwrap();
        for x in numbers + 1..=numbers + g {
            let earlier: Vec<String> = (0..g).map(|h| format!("not v({h},{})", x - 1)).collect();
            writeln!(out, ":- v({g},{x}), {}.", earlier.join(", ")).unwrap();
        }
    }
    for (i, gate) in cone.gates.iter().enumerate() {
        match *gate {
            Gate::Always => writeln!(out, "n({i}).").unwrap(),
            Gate::Never => {}
            Gate::Is(g, k) => writeln!(out, "n({i}) :- v({g},{k}).").unwrap(),
            Gate::Same(g, h) => {
                for x in 0..numbers + gaps {
                    writeln!(out, "n({i}) :- v({g},{x}), v({h},{x}).").unwrap();
                }
            }
            Gate::Not(a) => writeln!(out, "n({i}) :- not n({a}).").unwrap(),
            Gate::Both(a, b) => writeln!(out, "n({i}) :- n({a}), n({b}).").unwrap(),
            Gate::Either(a, b) => writeln!(out, "n({i}) :- n({a}).\nn({i}) :- n({b}).").unwrap(),
        }
    }
    let not = if want == Want::Shows { "not " } else { "" };
    writeln!(
        out,
        ":- not n({}).\n:- {not}n({}).\n#show v/2.",
        cone.known, cone.shows
    )
    .unwrap();
    out
}

/// Clauses in DIMACS: first a variable for each gap and value, then one for each node.
pub fn dimacs(cone: &Cone, want: Want) -> String {
    let (gaps, numbers) = (cone.gaps.len(), cone.numbers.len());
    let values = numbers + gaps;
    let value = |g: usize, x: usize| (g * values + x + 1) as i64;
    let node = |i: usize| (gaps * values + i + 1) as i64;
    let mut clauses: Vec<Vec<i64>> = Vec::new();
    for g in 0..gaps {
        clauses.push((0..values).map(|x| value(g, x)).collect());
        for x in 0..values {
            clauses.extend((x + 1..values).map(|y| vec![-value(g, x), -value(g, y)]));
        }
        clauses.extend((numbers + g + 1..values).map(|x| vec![-value(g, x)]));
        for x in numbers + 1..=numbers + g {
            let earlier = (0..g).map(|h| value(h, x - 1));
            clauses.push(std::iter::once(-value(g, x)).chain(earlier).collect());
        }
    }
    for (i, gate) in cone.gates.iter().enumerate() {
        let n = node(i);
        match *gate {
            Gate::Always => clauses.push(vec![n]),
            Gate::Never => clauses.push(vec![-n]),
            Gate::Is(g, k) => clauses.extend([vec![-n, value(g, k)], vec![n, -value(g, k)]]),
            Gate::Same(g, h) => {
                for (a, b) in (0..values).map(|x| (value(g, x), value(h, x))) {
                    clauses.extend([vec![-n, -a, b], vec![-n, a, -b], vec![n, -a, -b]]);
                }
            }
            Gate::Not(a) => clauses.extend([vec![-n, -node(a)], vec![n, node(a)]]),
            Gate::Both(a, b) => clauses.extend([
                vec![-n, node(a)],
                vec![-n, node(b)],
                vec![n, -node(a), -node(b)],
            ]),
            Gate::Either(a, b) => clauses.extend([
                vec![n, -node(a)],
                vec![n, -node(b)],
                vec![-n, node(a), node(b)],
            ]),
        }
    }
    clauses.push(vec![node(cone.known)]);
    clauses.push(vec![if want == Want::Shows {
        node(cone.shows)
    } else {
        -node(cone.shows)
    }]);
    let mut out = format!(
        "p cnf {} {}\n",
        gaps * values + cone.gates.len(),
        clauses.len()
    );
    for clause in clauses {
        for literal in clause {
            write!(out, "{literal} ").unwrap();
        }
        out.push_str("0\n");
    }
    out
}
