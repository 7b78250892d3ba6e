//! Document 01's bench examples, P1 to P12 and the two after them.
use tameswulk::{Arena, Instruction, Refusal, Term, Type};

struct Bench {
    arena: Arena,
}

impl Bench {
    fn new() -> Bench {
        Bench { arena: Arena::new(8_192).unwrap() }
    }

    fn bits(&mut self, width: u64) -> Type {
        self.arena.build(Instruction::bitvec_type(width)).unwrap()
    }

    fn literal(&mut self, width: u64, value: u64) -> Term {
        let bits = self.bits(width);
        self.term(Instruction::bitvec_literal(value, bits))
    }

    fn variable(&mut self, id: u64, width: u64) -> Term {
        let bits = self.bits(width);
        self.term(Instruction::variable(id, bits))
    }

    fn term(&mut self, instruction: Instruction<Term>) -> Term {
        self.arena.build(instruction).unwrap()
    }

    fn is_application(&self, t: Term, operation: u64, members: &[Term]) {
        let node = self.arena.node(t.position()).unwrap();
        assert_eq!(node.kind, 100 + operation);
        assert_eq!(node.members, members.iter().map(|m| m.position()).collect::<Vec<_>>());
    }
}

type Two = fn(Term, Term) -> Instruction<Term>;

fn folds(width: u64, operation: Two, t: u64, u: u64, result: u64) {
    let mut bench = Bench::new();
    let (t, u) = (bench.literal(width, t), bench.literal(width, u));
    let expected = bench.literal(width, result);
    assert_eq!(bench.term(operation(t, u)), expected);
}

fn decides(width: u64, operation: Two, t: u64, u: u64, result: bool) {
    let mut bench = Bench::new();
    let (t, u) = (bench.literal(width, t), bench.literal(width, u));
    assert_eq!(bench.term(operation(t, u)), if result { Term::TRUE } else { Term::FALSE });
}

#[test]
fn p1_twenty_cells_and_nineteen() {
    let mut arena = Arena::new(20).unwrap();
    let bits = arena.build(Instruction::bitvec_type(64)).unwrap();
    let five = arena.build(Instruction::bitvec_literal(5, bits)).unwrap();
    assert_eq!((bits.position(), five.position(), arena.mark()), (12, 16, 20));

    let mut arena = Arena::new(19).unwrap();
    let bits = arena.build(Instruction::bitvec_type(64)).unwrap();
    let before = arena.clone();
    assert_eq!(arena.build(Instruction::bitvec_literal(5, bits)), Err(Refusal::NoRoom));
    assert_eq!(arena.mark(), 16);
    assert_eq!(arena, before);
}

#[test]
fn p2_compiled_neg_overflows() {
    let mut bench = Bench::new();
    let bits = bench.bits(64);
    let least = bench.literal(64, 1 << 63);
    let none = bench.term(Instruction::none(bits));
    assert_eq!(bench.term(Instruction::compiled_neg(least)), none);
    assert_eq!(bench.arena.node(none.position()).unwrap().kind, 18);
}

#[test]
fn p3_eq_of_two_somes() {
    let mut bench = Bench::new();
    let (a, b) = (bench.variable(0, 64), bench.variable(1, 64));
    let (some_a, some_b) = (bench.term(Instruction::some(a)), bench.term(Instruction::some(b)));
    let eq = bench.term(Instruction::eq(some_a, some_b));
    bench.is_application(eq, 24, &[a, b]);
    assert_eq!(bench.term(Instruction::eq(a, b)), eq);
}

#[test]
fn p4_one_layer_only() {
    let mut bench = Bench::new();
    let (a, b) = (bench.variable(0, 64), bench.variable(1, 64));
    let (some_a, some_b) = (bench.term(Instruction::some(a)), bench.term(Instruction::some(b)));
    let (two_a, two_b) = (bench.term(Instruction::some(some_a)), bench.term(Instruction::some(some_b)));
    let eq = bench.term(Instruction::eq(two_a, two_b));
    bench.is_application(eq, 24, &[some_a, some_b]);
}

#[test]
fn p5_option_get_of_an_ite() {
    let mut bench = Bench::new();
    let g = bench.term(Instruction::variable(2, Type::BOOL));
    let (a, b) = (bench.variable(0, 64), bench.variable(1, 64));
    let (some_a, some_b) = (bench.term(Instruction::some(a)), bench.term(Instruction::some(b)));
    let (two_a, two_b) = (bench.term(Instruction::some(some_a)), bench.term(Instruction::some(some_b)));
    let ite = bench.term(Instruction::ite(g, two_a, two_b));
    let got = bench.term(Instruction::option_get(ite));
    bench.is_application(got, 25, &[g, some_a, some_b]);
    assert_eq!(bench.term(Instruction::is_none(got)), Term::FALSE);
}

#[test]
fn p6_width_one() {
    decides(1, Instruction::slt, 1, 0, true);
    decides(1, Instruction::ult, 1, 0, false);
    let mut bench = Bench::new();
    let one = bench.literal(1, 1);
    assert_eq!(bench.term(Instruction::nego(one)), Term::TRUE);
}

#[test]
fn p7_division_by_zero() {
    folds(4, Instruction::udiv, 7, 0, 15);
    folds(4, Instruction::urem, 7, 0, 7);
    folds(4, Instruction::sdiv, 7, 0, 15);
    folds(4, Instruction::sdiv, 9, 0, 1);
}

#[test]
fn p8_two_signed_remainders() {
    folds(4, Instruction::srem, 9, 3, 15);
    folds(4, Instruction::smod, 9, 3, 2);
}

#[test]
fn p9_shifts_up_to_the_width() {
    folds(4, Instruction::shl, 1, 3, 8);
    folds(4, Instruction::shl, 1, 4, 0);
}

#[test]
fn p10_sets_are_one_position() {
    let mut bench = Bench::new();
    let bits = bench.bits(8);
    let (three, five) = (bench.literal(8, 3), bench.literal(8, 5));
    let set = bench.term(Instruction::set(bits, &[five, three, five]));
    assert_eq!(bench.term(Instruction::set(bits, &[three, five])), set);
}

#[test]
fn p11_any_none_from_the_back() {
    let mut bench = Bench::new();
    let bits = bench.bits(64);
    let option = bench.arena.build(Instruction::option_type(bits)).unwrap();
    let x = bench.term(Instruction::variable(0, option));
    let y = bench.term(Instruction::variable(1, option));
    let any = bench.term(Instruction::any_none(&[x, y]));
    let (no_x, no_y) = (bench.term(Instruction::is_none(x)), bench.term(Instruction::is_none(y)));
    bench.is_application(any, 22, &[no_y, no_x]);
}

#[test]
fn p12_zero_extend() {
    let mut bench = Bench::new();
    let t = bench.variable(0, 60);
    let wide = bench.term(Instruction::zero_extend(4, t));
    let sixty_four = bench.bits(64);
    assert_eq!(bench.arena.type_of(wide), Some(sixty_four));
    assert_eq!(bench.arena.build(Instruction::zero_extend(5, t)), Err(Refusal::WrongWidth));
    let same = bench.term(Instruction::zero_extend(0, t));
    assert_ne!(same, t);
    bench.is_application(same, 49, &[t]);
}

#[test]
fn signed_products_of_64_bits() {
    decides(64, Instruction::smulo, 1 << 32, 1 << 31, true);
    decides(64, Instruction::smulo, (1u64 << 32).wrapping_neg(), 1 << 31, false);
}

#[test]
fn the_last_of_equal_attributes() {
    let mut bench = Bench::new();
    let (a, b) = (bench.variable(0, 64), bench.variable(1, 64));
    let record = bench.term(Instruction::record(&[(1, a), (1, b)]));
    assert_eq!(bench.term(Instruction::record_get(1, record)), b);
}

#[test]
fn the_example_script() {
    let bytes = [0x02, 0x40, 0x00, 0x0B, 0x05, 0x01, 0x0C, 0x1E, 0x00, 0x01, 0x10, 0x14, 0x00, 0x01, 0x10];
    assert_eq!(tameswulk::script(&bytes), b"ok 12 16\nok 16 20\nok 20 24\nrefused 5\n");
    assert_eq!(tameswulk::script(&[]), b"");
    assert_eq!(tameswulk::script(&[0x02]), b"refused 10\n");
    assert_eq!(tameswulk::script(&vec![0; 65_537]), b"refused 10\n");
}
