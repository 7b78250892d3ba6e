// Times the well-formedness test on arenas filled with one mix of nodes. run.sh puts the modules beside this file.
mod arena;
mod node_kinds;
mod node_tests;
mod runs;
mod walks;
mod wellformed;

use arena::cells::View;
use std::hint::black_box;
use std::time::Instant;

const BOOL: u64 = 0;
const FALSE: u64 = 4;

// The cells in use, and how many there may be.
struct Arena(Vec<u64>, usize);

impl Arena {
    // The position of a new node; None where it does not fit.
    fn add(&mut self, kind: u64, ty: u64, par: u64, members: &[u64]) -> Option<u64> {
        let at = self.0.len();
        if at + 4 + members.len() > self.1 {
            return None;
        }
        self.0.extend([kind, ty, par, members.len() as u64]);
        self.0.extend(members);
        Some(at as u64)
    }
}

// Turn i adds to the position that the turn before gave, and gives the next.
type Turn = fn(&mut Arena, u64, u64) -> Option<u64>;

fn set_over_option(a: &mut Arena, _: u64, t: u64) -> Option<u64> {
    let option = a.add(3, 0, 0, &[t])?;
    a.add(4, 0, 0, &[option])?;
    Some(option)
}

fn record_type(a: &mut Arena, _: u64, t: u64) -> Option<u64> {
    a.add(5, 0, 0, &[1, t, 2, t])
}

// A record type and then its literal, which the next turn finds 8 cells behind it.
fn record(a: &mut Arena, i: u64, x: u64) -> Option<u64> {
    let t = record_type(a, i, if i == 0 { BOOL } else { x - 8 })?;
    a.add(21, t, 0, &[1, x, 2, x])
}

#[rustfmt::skip]
const MIXES: [(&str, u64, Turn); 10] = [
    ("variables of Bool, 4", BOOL, |a, i, _| a.add(22, BOOL, i, &[])),
    ("64-bit literals, 4", BOOL, |a, i, _| if i == 0 { a.add(2, 0, 64, &[]) } else { a.add(17, 12, i, &[]) }),
    ("variables at 64 types, 4", BOOL, |a, i, _| if i < 64 { a.add(2, 0, i + 1, &[]) } else { a.add(22, 12 + i % 64 * 4, i, &[]) }),
    ("not of not, 5", FALSE, |a, _, x| a.add(120, BOOL, 0, &[x])),
    ("Option of Option, 5", BOOL, |a, _, t| a.add(3, 0, 0, &[t])),
    ("and over 128 variables, 6", BOOL, |a, i, _| if i < 128 { a.add(22, BOOL, i, &[]) }
        else { a.add(121, BOOL, 0, &[8 + i / 128 * 4, 12 + i % 128 * 4]) }),
    ("ite with two members alike, 7", FALSE, |a, _, x| a.add(125, BOOL, 0, &[FALSE, FALSE, x])),
    ("record type (1: T, 2: T), 8", BOOL, record_type),
    ("a Set over each of a chain of Options, 10 for the pair", BOOL, set_over_option),
    ("the same over wide records, which take a third of the cells", BOOL,
        |a, i, t| if a.0.len() < a.1 / 3 { a.add(5, 0, 0, &std::array::from_fn::<_, 128, _>(|j| if j % 2 == 0 { j as u64 } else { t })) }
        else { set_over_option(a, i, t) }),
];

// A full arena, its mark, and what the last turn gave.
fn filled(first: u64, turn: Turn, size: usize) -> (Vec<u64>, usize, usize) {
    let mut a = Arena(vec![1, 0, 0, 0, 16, 0, 0, 0, 16, 0, 1, 0], size);
    let (mut i, mut last) = (0, first);
    while let Some(next) = turn(&mut a, i, last) {
        (i, last) = (i + 1, next);
    }
    let mark = a.0.len();
    a.0.resize(size, 0);
    (a.0, mark, last as usize)
}

// Milliseconds, the best of five. The test has to say yes.
fn best(test: impl Fn() -> bool) -> f64 {
    let times = (0..5).map(|_| {
        let start = Instant::now();
        assert!(black_box(test()));
        start.elapsed().as_secs_f64() * 1000.0
    });
    times.fold(f64::INFINITY, f64::min)
}

fn main() {
    println!("| mix, cells of a node | 4,096 cells | 16,384 cells | 65,536 cells |\n|---|---|---|---|");
    for (name, first, turn) in MIXES {
        let [a, b, c] = [4096, 16384, 65536].map(|size| {
            let (cells, mark, _) = filled(first, turn, size);
            best(|| wellformed::is_formed(&cells, mark as u64))
        });
        println!("| {name} | {a:.1} | {b:.1} | {c:.0} |");
    }
    let (cells, mark, last) = filled(BOOL, record_type, 65536);
    let nodes = View { cells: &cells, mark };
    let time = best(|| walks::set_free(&nodes, last));
    println!("nested-set test of the last record type: {time:.2} ms");
    let (cells, mark, last) = filled(FALSE, record, 65536);
    let nodes = View { cells: &cells, mark };
    let time = best(|| walks::is_literal(&nodes, last));
    println!("literal test of the last record over it: {time:.2} ms");
}
