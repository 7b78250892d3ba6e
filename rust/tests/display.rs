//! Terms in readable form. Positions are counted by hand: four cells and the members for each node, its type before it.
use tameswulk::{Arena, Instruction, Refusal, Term, Type};

fn written(arena: &Arena, t: Term) -> String {
    arena.display(t).unwrap().to_string()
}

/// What an instruction builds over Bitvec 8 at 12 and a variable of it at 16, which the rest of the instruction may name.
fn one(make: impl Fn(&mut Arena, Type, Term) -> Result<Term, Refusal>) -> String {
    let mut arena = Arena::new(200).unwrap();
    let bits = arena.build(Instruction::bitvec_type(8)).unwrap();
    let x = arena.build(Instruction::variable(0, bits)).unwrap();
    let t = make(&mut arena, bits, x).unwrap();
    written(&arena, t)
}

#[test]
fn each_kind_of_node() {
    assert_eq!(one(|_, _, x| Ok(x)), "v0:BV8");
    assert_eq!(one(|_, _, _| Ok(Term::TRUE)), "true");
    assert_eq!(one(|a, bits, _| a.build(Instruction::bitvec_literal(5, bits))), "5:BV8");
    assert_eq!(one(|a, bits, _| a.build(Instruction::none(bits))), "none:(Option BV8)");
    assert_eq!(one(|a, _, x| a.build(Instruction::some(x))), "(some v0:BV8)");
    assert_eq!(one(|a, bits, x| a.build(Instruction::set(bits, &[x]))), "(set:(Set BV8) v0:BV8)");
    assert_eq!(one(|a, bits, _| a.build(Instruction::set(bits, &[]))), "(set:(Set BV8))");
    assert_eq!(one(|a, _, x| a.build(Instruction::record(&[(7, x), (9, Term::FALSE)]))), "(record 7:v0:BV8 9:false)");
    assert_eq!(one(|a, _, x| a.build(Instruction::uninterpreted(3, Type::BOOL, x))), "(f3:Bool v0:BV8)");
    assert_eq!(one(|a, _, x| a.build(Instruction::zero_extend(4, x))), "(zero_extend 4 v0:BV8)");
    assert_eq!(one(|a, _, x| a.build(Instruction::neg(x))), "(bvneg v0:BV8)");
    assert_eq!(one(|a, _, x| a.build(Instruction::smulo(x, x))), "(bvsmulo v0:BV8 v0:BV8)");
    let got = |a: &mut Arena, bits, _| {
        let ty = a.build(Instruction::record_type(&[(1, Type::BOOL), (2, bits)]))?;
        let record = a.build(Instruction::variable(1, ty))?;
        a.build(Instruction::record_get(2, record))
    };
    assert_eq!(one(got), "(record.get 2 v1:(Record 1:Bool 2:BV8))");
}

#[test]
fn every_application_has_a_name() {
    let two: [fn(Term, Term) -> Instruction<Term>; 17] = [
        Instruction::eq,
        Instruction::add,
        Instruction::sub,
        Instruction::mul,
        Instruction::sdiv,
        Instruction::udiv,
        Instruction::srem,
        Instruction::smod,
        Instruction::urem,
        Instruction::shl,
        Instruction::lshr,
        Instruction::slt,
        Instruction::sle,
        Instruction::ult,
        Instruction::ule,
        Instruction::saddo,
        Instruction::ssubo,
    ];
    let names = "= bvadd bvsub bvmul bvsdiv bvudiv bvsrem bvsmod bvurem bvshl bvlshr bvslt bvsle bvult bvule bvsaddo bvssubo";
    for (operation, name) in two.into_iter().zip(names.split(' ')) {
        let with_zero = |a: &mut Arena, bits, x| {
            let zero = a.build(Instruction::bitvec_literal(0, bits))?;
            a.build(operation(x, zero))
        };
        assert_eq!(one(with_zero), format!("({name} v0:BV8 0:BV8)"));
    }
}

#[test]
fn bools_sets_and_options() {
    let mut arena = Arena::new(400).unwrap();
    let [g, h] = [0, 1].map(|id| arena.build(Instruction::variable(id, Type::BOOL)).unwrap());
    let set = arena.build(Instruction::set_type(Type::BOOL)).unwrap();
    let option = arena.build(Instruction::option_type(Type::BOOL)).unwrap();
    let [s, t] = [2, 3].map(|id| arena.build(Instruction::variable(id, set)).unwrap());
    let o = arena.build(Instruction::variable(4, option)).unwrap();
    let mut is = |instruction: Instruction<Term>, text: &str| {
        let built = arena.build(instruction).unwrap();
        assert_eq!(written(&arena, built), text);
    };
    is(Instruction::not(g), "(not v0:Bool)");
    is(Instruction::and(g, h), "(and v0:Bool v1:Bool)");
    is(Instruction::or(g, h), "(or v0:Bool v1:Bool)");
    is(Instruction::ite(g, s, s), "v2:(Set Bool)");
    is(Instruction::ite(g, h, g), "(ite v0:Bool v1:Bool v0:Bool)");
    is(Instruction::member(g, s), "(set.member v0:Bool v2:(Set Bool))");
    // the type of both stands at 20, behind the two variables, and is written once
    is(Instruction::subset(s, t), "let t20 = (Set Bool)\n(set.subset v2:t20 v3:t20)");
    is(Instruction::inter(s, t), "let t20 = (Set Bool)\n(set.inter v2:t20 v3:t20)");
    is(Instruction::option_get(o), "(option.get v4:(Option Bool))");
}

/// A record of one term twice, that record twice, and so on.
fn doubled(depth: usize) -> (Arena, Term) {
    let mut arena = Arena::new(65_536).unwrap();
    let mut t = arena.build(Instruction::variable(0, Type::BOOL)).unwrap();
    for _ in 0..depth {
        t = arena.build(Instruction::record(&[(1, t), (2, t)])).unwrap();
    }
    (arena, t)
}

#[test]
fn a_shared_part_is_written_once() {
    // the variable at 12; types at 16, 32, 48; records at 24, 40, 56
    let (arena, t) = doubled(3);
    let lines = ["let t24 = (record 1:v0:Bool 2:v0:Bool)", "let t40 = (record 1:t24 2:t24)", "(record 1:t40 2:t40)"];
    assert_eq!(written(&arena, t), lines.join("\n"));
    // the deepest has a line for each record
    let (arena, t) = doubled(4_000);
    assert_eq!(written(&arena, t).lines().count(), 4_000);
    // and so has each of its types
    let (mut arena, t) = doubled(100);
    let none = arena.build(Instruction::none(arena.type_of(t).unwrap())).unwrap();
    assert_eq!(written(&arena, none).lines().count(), 100);
}

#[test]
fn the_deepest_term_is_written() {
    let mut arena = Arena::new(65_536).unwrap();
    let mut t = Term::TRUE;
    while let Ok(next) = arena.build(Instruction::some(t)) {
        t = next;
    }
    // 6,552 levels over true: a line for every 64th of them, counted with true, and the term
    assert_eq!(written(&arena, t).lines().count(), 6_553 / 64 + 1);
}

#[test]
fn of_another_arena_nothing_is_written() {
    let (arena, t) = doubled(3);
    assert!(Arena::new(64).unwrap().display(t).is_none());
    assert!(arena.display(Term::TRUE).is_some());
}
