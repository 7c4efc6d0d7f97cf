//! Makes instances for decide_file, and the same for other programs: bench/README.md says how.

mod answers;
mod circuits;
mod encodings;
mod store;

use answers::{deep, parish};
use circuits::{nogoods, parity, twins};
use encodings::{clingo, dimacs, smt, Want};
use std::process::exit;
use store::{Find, Instance};

const USAGE: &str = "usage: make KIND NODES [SEED [GAPS [NUMBERS]]]      an instance of this kind, with about so many nodes
       make FORMAT shows|lacks FILE                an instance for another program
KIND: parity parity-last nogoods nogoods-last twins deep1 deep2 deep1-twice deep2-twice parish
FORMAT: smt clingo dimacs";

fn main() {
    let args: Vec<String> = std::env::args().skip(1).collect();
    let words: Vec<&str> = args.iter().map(String::as_str).collect();
    let text = match words.as_slice() {
        [format, want @ ("shows" | "lacks"), file] => encode(format, want, file),
        [kind, numbers @ ..] if !numbers.is_empty() => instance(kind, numbers),
        _ => None,
    };
    match text {
        Some(text) => print!("{text}"),
        None => {
            eprintln!("{USAGE}");
            exit(2)
        }
    }
}

fn instance(kind: &str, numbers: &[&str]) -> Option<String> {
    let numbers: Vec<u64> = numbers
        .iter()
        .map(|n| n.parse().ok())
        .collect::<Option<_>>()?;
    let or = |i: usize, default: u64| numbers.get(i).copied().unwrap_or(default);
    let (size, seed) = (or(0, 0) as usize, or(1, 1));
    let (gaps, named) = if kind == "parish" {
        (or(2, 4), or(3, 3))
    } else {
        (or(2, 6), or(3, 8))
    };
    let instance = match kind {
        "parity" => parity(seed, gaps, named, size, false),
        "parity-last" => parity(seed, gaps, named, size, true),
        "nogoods" => nogoods(seed, gaps, named, size, false),
        "nogoods-last" => nogoods(seed, gaps, named, size, true),
        "twins" => twins(seed, gaps, named, size),
        "deep1" => deep(seed, gaps, named, size, 1, Find::Standing),
        "deep2" => deep(seed, gaps, named, size, 2, Find::Standing),
        "deep1-twice" => deep(seed, gaps, named, size, 1, Find::Nothing),
        "deep2-twice" => deep(seed, gaps, named, size, 2, Find::Nothing),
        "parish" => parish(seed, gaps, named, size),
        _ => return None,
    };
    Some(instance.text())
}

fn encode(format: &str, want: &str, file: &str) -> Option<String> {
    let want = if want == "shows" {
        Want::Shows
    } else {
        Want::Lacks
    };
    let text =
        std::fs::read_to_string(file).unwrap_or_else(|fault| stop(&format!("{file}: {fault}")));
    let instance =
        Instance::parse(&text).unwrap_or_else(|| stop(&format!("{file} is no instance")));
    let cone = instance.cone();
    match format {
        "smt" => Some(smt(&cone, want)),
        "clingo" => Some(clingo(&cone, want)),
        "dimacs" => Some(dimacs(&cone, want)),
        _ => None,
    }
}

fn stop(why: &str) -> ! {
    eprintln!("{why}");
    exit(2)
}
