//! The same work on the linked library and on the original, timed in one run. Prints docs/BENCH.md's table.
use oracle::name;
use std::hint::black_box;
use std::time::Instant;
use symcc_orig::symcc::{
    bitvec::BitVec,
    compiler,
    env::SymEntities,
    factory,
    term::{Term, TermVar},
    term_type::TermType,
    type_abbrevs::Attr,
};
use tameswulk::{raw, Arena, Instruction};

/// What the cases need of a factory. Operands are borrowed, and cloned where the original takes them by value.
trait Factory {
    type Term: Clone;
    type Type: Clone;
    fn bits(&mut self) -> Self::Type;
    fn option(&mut self, element: &Self::Type) -> Self::Type;
    fn literal(&mut self, value: u64) -> Self::Term;
    fn variable(&mut self, id: usize, ty: &Self::Type) -> Self::Term;
    fn record(&mut self, fields: &[(usize, &Self::Term)]) -> Self::Term;
    fn and(&mut self, t: &Self::Term, u: &Self::Term) -> Self::Term;
    fn slt(&mut self, t: &Self::Term, u: &Self::Term) -> Self::Term;
    fn eq(&mut self, t: &Self::Term, u: &Self::Term) -> Self::Term;
    fn option_get(&mut self, t: &Self::Term) -> Self::Term;
    fn if_some(&mut self, option: &Self::Term, t: &Self::Term) -> Self::Term;
    fn has_attr(&mut self, attribute: usize, t: &Self::Term) -> Self::Term;
    fn get_attr(&mut self, attribute: usize, t: &Self::Term) -> Self::Term;
}

/// The original, with names made before the time is taken.
struct Original {
    names: Vec<Attr>,
    entities: SymEntities,
}

impl Original {
    fn new(names: usize) -> Original {
        let names = (0..names as u64).map(|n| name(n).ok().expect("a number below 2^32")).collect();
        Original { names, entities: SymEntities(Default::default()) }
    }
}

const SIXTY_FOUR: std::num::NonZeroU32 = std::num::NonZeroU32::new(64).unwrap();

impl Factory for Original {
    type Term = Term;
    type Type = TermType;
    fn bits(&mut self) -> TermType {
        TermType::Bitvec { n: SIXTY_FOUR }
    }
    fn option(&mut self, element: &TermType) -> TermType {
        TermType::option_of(element.clone())
    }
    fn literal(&mut self, value: u64) -> Term {
        BitVec::of_nat(SIXTY_FOUR, value.into()).into()
    }
    fn variable(&mut self, id: usize, ty: &TermType) -> Term {
        Term::Var(TermVar { id: self.names[id].clone(), ty: ty.clone() })
    }
    fn record(&mut self, fields: &[(usize, &Term)]) -> Term {
        factory::record_of(fields.iter().map(|&(a, t)| (self.names[a].clone(), t.clone())))
    }
    fn and(&mut self, t: &Term, u: &Term) -> Term {
        factory::and(t.clone(), u.clone())
    }
    fn slt(&mut self, t: &Term, u: &Term) -> Term {
        factory::bvslt(t.clone(), u.clone())
    }
    fn eq(&mut self, t: &Term, u: &Term) -> Term {
        factory::eq(t.clone(), u.clone())
    }
    fn option_get(&mut self, t: &Term) -> Term {
        factory::option_get(t.clone())
    }
    fn if_some(&mut self, option: &Term, t: &Term) -> Term {
        factory::if_some(option.clone(), t.clone())
    }
    fn has_attr(&mut self, attribute: usize, t: &Term) -> Term {
        compiler::compile_has_attr(t.clone(), &self.names[attribute], &self.entities).expect("a record")
    }
    fn get_attr(&mut self, attribute: usize, t: &Term) -> Term {
        compiler::compile_get_attr(t.clone(), &self.names[attribute], &self.entities).expect("a record with the attribute")
    }
}

/// Ours, in an arena that has room for the case.
struct Ours(Arena);

impl Ours {
    fn new(cells: usize) -> Ours {
        Ours(Arena::new(cells).expect("12 to 65,536 cells"))
    }

    fn build<P: tameswulk::Position>(&mut self, instruction: Instruction<P>) -> P {
        self.0.build(instruction).expect("an instruction that is accepted")
    }
}

impl Factory for Ours {
    type Term = tameswulk::Term;
    type Type = tameswulk::Type;
    fn bits(&mut self) -> Self::Type {
        self.build(Instruction::bitvec_type(64))
    }
    fn option(&mut self, element: &Self::Type) -> Self::Type {
        self.build(Instruction::option_type(*element))
    }
    fn literal(&mut self, value: u64) -> Self::Term {
        let bits = self.bits();
        self.build(Instruction::bitvec_literal(value, bits))
    }
    fn variable(&mut self, id: usize, ty: &Self::Type) -> Self::Term {
        self.build(Instruction::variable(id as u64, *ty))
    }
    fn record(&mut self, fields: &[(usize, &Self::Term)]) -> Self::Term {
        let fields: Vec<_> = fields.iter().map(|&(a, t)| (a as u64, *t)).collect();
        self.build(Instruction::record(&fields))
    }
    fn and(&mut self, t: &Self::Term, u: &Self::Term) -> Self::Term {
        self.build(Instruction::and(*t, *u))
    }
    fn slt(&mut self, t: &Self::Term, u: &Self::Term) -> Self::Term {
        self.build(Instruction::slt(*t, *u))
    }
    fn eq(&mut self, t: &Self::Term, u: &Self::Term) -> Self::Term {
        self.build(Instruction::eq(*t, *u))
    }
    fn option_get(&mut self, t: &Self::Term) -> Self::Term {
        self.build(Instruction::option_get(*t))
    }
    fn if_some(&mut self, option: &Self::Term, t: &Self::Term) -> Self::Term {
        self.build(Instruction::if_some(*option, *t))
    }
    fn has_attr(&mut self, attribute: usize, t: &Self::Term) -> Self::Term {
        self.build(Instruction::compiled_has_attr(attribute as u64, *t))
    }
    fn get_attr(&mut self, attribute: usize, t: &Self::Term) -> Self::Term {
        self.build(Instruction::compiled_get_attr(attribute as u64, *t))
    }
}

/// `and (.. and (v0 slt v1) (v1 slt v2) ..) (vn-1 slt vn)`.
fn chain<F: Factory>(f: &mut F, n: usize) -> F::Term {
    let bits = f.bits();
    let first = f.variable(0, &bits);
    let mut last = f.variable(1, &bits);
    let mut all = f.slt(&first, &last);
    for id in 2..=n {
        let next = f.variable(id, &bits);
        let comparison = f.slt(&last, &next);
        all = f.and(&all, &comparison);
        last = next;
    }
    all
}

/// So many rules over one request each: a record with a version, an optional old version and a literal limit; the version is above the
/// limit, and not below the old one where there is one.
fn mix<F: Factory>(f: &mut F, n: usize) -> F::Term {
    let bits = f.bits();
    let optional = f.option(&bits);
    let mut rules: Option<F::Term> = None;
    for i in 0..n {
        let (version, old) = (f.variable(2 * i, &bits), f.variable(2 * i + 1, &optional));
        let limit = f.literal(i as u64 % 16);
        let request = f.record(&[(1, &version), (2, &old), (3, &limit)]);
        let (got, bound) = (f.get_attr(1, &request), f.get_attr(3, &request));
        let (got, bound) = (f.option_get(&got), f.option_get(&bound));
        let above = f.slt(&bound, &got);
        let has = f.has_attr(2, &request);
        let before = f.get_attr(2, &request);
        let value = f.option_get(&before);
        let newer = f.slt(&value, &got);
        let kept = f.if_some(&before, &newer);
        let (has, kept) = (f.option_get(&has), f.option_get(&kept));
        let rule = f.and(&above, &has);
        let rule = f.and(&rule, &kept);
        rules = Some(match rules {
            Some(others) => f.and(&others, &rule),
            None => rule,
        });
    }
    rules.expect("one request or more")
}

/// A record of one literal twice, that record twice, and so on.
fn doubled<F: Factory>(f: &mut F, value: u64, depth: usize) -> F::Term {
    let mut t = f.literal(value);
    for _ in 0..depth {
        t = f.record(&[(1, &t), (2, &t)]);
    }
    t
}

fn compared_doubled<F: Factory>(f: &mut F, depth: usize) -> F::Term {
    let (t, u) = (doubled(f, 1, depth), doubled(f, 2, depth));
    f.eq(&t, &u)
}

/// Microseconds: the median of seven runs, each repeated until it takes 20 milliseconds.
fn time<T>(mut work: impl FnMut() -> T) -> f64 {
    let mut repeats = 1;
    let mut run = |repeats: u32| {
        let start = Instant::now();
        (0..repeats).for_each(|_| drop(black_box(work())));
        start.elapsed().as_secs_f64()
    };
    while run(repeats) < 0.02 {
        repeats *= 2;
    }
    let mut times: Vec<f64> = (0..7).map(|_| run(repeats) / f64::from(repeats) * 1e6).collect();
    times.sort_by(f64::total_cmp);
    times[times.len() / 2]
}

/// Three digits, or a dash.
fn text(number: Option<f64>) -> String {
    match number {
        Some(n) if n < 0.01 => format!("{n:.5}"),
        Some(n) if n < 1.0 => format!("{n:.3}"),
        Some(n) if n < 10.0 => format!("{n:.2}"),
        Some(n) if n < 100.0 => format!("{n:.1}"),
        Some(n) => format!("{n:.0}"),
        None => "-".to_string(),
    }
}

/// Prints the rows of one case as they come: sizes in rising order, the original's time where it has one.
struct Table {
    case: &'static str,
    before: Option<(Option<f64>, f64)>,
}

impl Table {
    fn new(case: &'static str) -> Table {
        Table { case, before: None }
    }

    fn row(&mut self, size: usize, original: Option<f64>, ours: f64) {
        let (old_original, old_ours) = self.before.map_or((None, None), |(original, ours)| (original, Some(ours)));
        let growths = [original.zip(old_original), Some(ours).zip(old_ours)].map(|g| text(g.map(|(new, old)| new / old)));
        let ratio = text(original.map(|original| ours / original));
        println!(
            "| {} | {size} | {} | {} | {ratio} | {} | {} |",
            self.case,
            text(original),
            text(Some(ours)),
            growths[0],
            growths[1]
        );
        self.before = Some((original, ours));
    }
}

fn built() {
    let mut table = Table::new("chain of comparisons");
    for n in [100, 300, 1_000] {
        let mut original = Original::new(n + 1);
        table.row(n, Some(time(|| chain(&mut original, n))), time(|| chain(&mut Ours::new(16 * n + 64), n)));
    }
    let mut table = Table::new("mix of records, options, comparisons");
    for n in [10, 30, 100, 300] {
        let mut original = Original::new(2 * n + 4);
        table.row(n, Some(time(|| mix(&mut original, n))), time(|| mix(&mut Ours::new(120 * n + 256), n)));
    }
    let mut table = Table::new("doubling record, eq of two");
    for depth in [10, 14, 18, 22] {
        let mut original = Original::new(3);
        let ours = time(|| compared_doubled(&mut Ours::new(32 * depth + 64), depth));
        table.row(depth, Some(time(|| compared_doubled(&mut original, depth))), ours);
    }
    for depth in [26, 100, 1_000] {
        table.row(depth, None, time(|| compared_doubled(&mut Ours::new(32 * depth + 64), depth)));
    }
}

fn compared() {
    let mut table = Table::new("eq of equal chains built twice");
    for n in [100, 300, 1_000] {
        let mut original = Original::new(n + 1);
        let (t, u) = (chain(&mut original, n), chain(&mut original, n));
        let mut ours = Ours::new(16 * n + 64);
        let (v, w) = (chain(&mut ours, n), chain(&mut ours, n));
        assert_eq!(v, w);
        table.row(n, Some(time(|| original.eq(&t, &u))), time(|| ours.eq(&v, &w)));
    }
}

/// An arena of so many cells, as full of a chain as it gets.
fn full(cells: usize) -> (Box<[u64]>, u64, u64) {
    let mut ours = Ours::new(cells);
    let last = chain(&mut ours, (cells - 16) / 16);
    let (cells, mark) = ours.0.into_cells();
    (cells, mark, last.position())
}

fn tested() {
    let sizes = [1_000, 10_000, 65_536];
    let mut with_test = Table::new("one call, arena tested");
    for size in sizes {
        let (mut cells, mark, t) = full(size);
        with_test.row(size, None, time(|| raw::call(&mut cells, mark, 24, 0, &[t, t])));
    }
    let mut known = Table::new("one call, arena known");
    for size in sizes {
        let (cells, mark, t) = full(size);
        let mut arena = Arena::from_cells(cells, mark).expect("a well-formed arena");
        known.row(size, None, time(|| arena.call(24, 0, &[t, t])));
    }
}

/// Builds one case once on our side, for a tool that counts instructions.
fn once(case: &str, size: usize) {
    match case {
        "chain" => chain(&mut Ours::new(16 * size + 64), size),
        "mix" => mix(&mut Ours::new(120 * size + 256), size),
        _ => panic!("the cases are chain and mix"),
    };
}

fn main() {
    let words: Vec<String> = std::env::args().skip_while(|word| word != "once").skip(1).take(2).collect();
    if let [case, size] = &words[..] {
        return once(case, size.parse().expect("a size"));
    }
    println!(
        "| case | size | original, µs | ours, µs | ratio | original's growth | our growth |\n|---|---|---|---|---|---|---|"
    );
    built();
    compared();
    tested();
}
