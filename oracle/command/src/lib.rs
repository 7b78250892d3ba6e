//! One instruction on the original cedar-policy-symcc code. ../README.md has the operations.
use cedar_policy_core::ast::{BinaryOp, UnaryOp};
use num_bigint::BigUint;
use smol_str::SmolStr;
use std::collections::BTreeMap;
use std::num::NonZeroU32;
use std::sync::Arc;
use symcc_orig::symcc::{
    bitvec::BitVec,
    compiler,
    env::SymEntities,
    factory as f,
    function::UnaryFunction,
    op::{Op, Uuf},
    term::{Term, TermPrim, TermVar},
    term_type::TermType,
};

/// Shift amounts, widths and extensions from here on are answered `huge`, uncalled.
const HUGE: u32 = 100_000;

/// ORACLE_HUGE_SHIFT=n calls the Rust for shift amounts below n (default 100000).
static HUGE_SHIFT: std::sync::LazyLock<BigUint> = std::sync::LazyLock::new(|| {
    std::env::var("ORACLE_HUGE_SHIFT")
        .ok()
        .and_then(|s| s.parse().ok())
        .unwrap_or_else(|| BigUint::from(HUGE))
});

/// What an instruction gave.
#[derive(Clone)]
pub enum R {
    Ty(TermType),
    Tm(Term),
    Failed,
}

/// The answer to one instruction.
pub enum Out {
    R(R),
    /// The Rust returned Err.
    Error(String),
    /// Known resource difference, not called.
    Huge,
    /// The instruction itself is malformed (the oracle's complaint, not the Rust's).
    Bad(String),
}

pub type Res<T> = Result<T, Out>;

fn bad<T>(s: &str) -> Res<T> {
    Err(Out::Bad(s.to_string()))
}

/// A variable's id, a function's or an attribute, as the original has it: names in the order of their numbers.
pub fn name(n: u64) -> Res<SmolStr> {
    if n >= 1 << 32 {
        return bad("number not below 2^32");
    }
    Ok(SmolStr::from(format!("{n:010}")))
}

/// The number that a name stands for.
pub fn unname(s: &str) -> u64 {
    s.parse().expect("oracle name")
}

/// The operation number of an operator, and its n, attribute or id where it has one.
pub fn op_number(op: &Op) -> (u64, Option<u64>) {
    let n = match op {
        Op::Not => 20,
        Op::And => 21,
        Op::Or => 22,
        Op::Eq => 24,
        Op::Ite => 25,
        Op::Uuf(u) => return (26, Some(unname(&u.id))),
        Op::Bvneg => 30,
        Op::Bvadd => 31,
        Op::Bvsub => 32,
        Op::Bvmul => 33,
        Op::Bvsdiv => 34,
        Op::Bvudiv => 35,
        Op::Bvsrem => 36,
        Op::Bvsmod => 37,
        Op::Bvurem => 38,
        Op::Bvshl => 39,
        Op::Bvlshr => 40,
        Op::Bvslt => 41,
        Op::Bvsle => 42,
        Op::Bvult => 43,
        Op::Bvule => 44,
        Op::Bvnego => 45,
        Op::Bvsaddo => 46,
        Op::Bvssubo => 47,
        Op::Bvsmulo => 48,
        Op::ZeroExtend(n) => return (49, Some(u64::from(*n))),
        Op::SetMember => 50,
        Op::SetSubset => 51,
        Op::SetInter => 52,
        Op::OptionGet => 55,
        Op::RecordGet(a) => return (56, Some(unname(a))),
        Op::StringLike(_) | Op::Ext(_) => unreachable!("operator outside the domain"),
    };
    (n, None)
}

/// The result of an earlier instruction, or an attribute.
#[derive(Clone, Copy)]
pub enum Operand {
    Ref(usize),
    Num(u64),
}

pub struct Ins<'a> {
    pub operands: Vec<Operand>,
    pub results: &'a [R],
}

impl Ins<'_> {
    fn count(&self, n: usize) -> Res<()> {
        if self.operands.len() == n {
            Ok(())
        } else {
            bad("operand count")
        }
    }
    fn r(&self, i: usize) -> Res<&R> {
        match self.operands.get(i) {
            Some(Operand::Ref(k)) => match self.results.get(*k) {
                Some(R::Failed) => bad("operand failed"),
                Some(r) => Ok(r),
                None => bad("operand refers forward"),
            },
            Some(Operand::Num(_)) => bad("reference expected"),
            None => bad("operand count"),
        }
    }
    fn ty(&self, i: usize) -> Res<TermType> {
        match self.r(i)? {
            R::Ty(t) => Ok(t.clone()),
            _ => bad("type expected"),
        }
    }
    fn tm(&self, i: usize) -> Res<Term> {
        match self.r(i)? {
            R::Tm(t) => Ok(t.clone()),
            _ => bad("term expected"),
        }
    }
    fn tms(&self, from: usize) -> Res<Vec<Term>> {
        (from..self.operands.len()).map(|i| self.tm(i)).collect()
    }
    fn attr(&self, i: usize) -> Res<SmolStr> {
        match self.operands.get(i) {
            Some(Operand::Num(n)) => name(*n),
            _ => bad("attribute expected"),
        }
    }
    fn fields<T>(&self, get: impl Fn(usize) -> Res<T>) -> Res<Vec<(SmolStr, T)>> {
        if self.operands.len() % 2 != 0 {
            return bad("operand count");
        }
        (0..self.operands.len() / 2)
            .map(|i| Ok((self.attr(2 * i)?, get(2 * i + 1)?)))
            .collect()
    }
    fn one(&self, g: fn(Term) -> Term) -> Res<R> {
        self.count(1)?;
        Ok(R::Tm(g(self.tm(0)?)))
    }
    fn two(&self, g: fn(Term, Term) -> Term) -> Res<R> {
        self.count(2)?;
        Ok(R::Tm(g(self.tm(0)?, self.tm(1)?)))
    }
}

fn is_huge_shift(t1: &Term, t2: &Term) -> bool {
    match (t1, t2) {
        (Term::Prim(TermPrim::Bitvec(_)), Term::Prim(TermPrim::Bitvec(b))) => {
            *b.as_nat() >= *HUGE_SHIFT
        }
        _ => false,
    }
}

fn comp(r: Result<Term, symcc_orig::symcc::result::CompileError>) -> Res<R> {
    match r {
        Ok(t) => Ok(R::Tm(t)),
        Err(e) => Err(Out::Error(e.to_string())),
    }
}

/// Calls the original with one instruction's operands as they are.
pub fn run(op: u64, param: u64, ins: &Ins<'_>) -> Res<R> {
    let es = || SymEntities(BTreeMap::new());
    Ok(match op {
        1 => {
            ins.count(0)?;
            R::Ty(TermType::Bool)
        }
        2 => {
            ins.count(0)?;
            let w = u32::try_from(param).ok().and_then(NonZeroU32::new);
            match w {
                None => return bad("width"),
                Some(n) if n.get() >= HUGE => return Err(Out::Huge),
                Some(n) => R::Ty(TermType::Bitvec { n }),
            }
        }
        3 => {
            ins.count(1)?;
            R::Ty(TermType::option_of(ins.ty(0)?))
        }
        4 => {
            ins.count(1)?;
            R::Ty(TermType::set_of(ins.ty(0)?))
        }
        5 => R::Ty(TermType::Record {
            rty: Arc::new(ins.fields(|i| ins.ty(i))?.into_iter().collect()),
        }),
        10 => {
            ins.count(0)?;
            match param {
                0 => R::Tm(false.into()),
                1 => R::Tm(true.into()),
                _ => return bad("bool literal"),
            }
        }
        11 => {
            ins.count(1)?;
            match ins.ty(0)? {
                TermType::Bitvec { n } => R::Tm(BitVec::of_nat(n, BigUint::from(param)).into()),
                _ => return bad("Bitvec type expected"),
            }
        }
        12 => {
            ins.count(1)?;
            R::Tm(f::none_of(ins.ty(0)?))
        }
        13 => ins.one(f::some_of)?,
        14 => {
            let ty = ins.ty(0)?;
            R::Tm(f::set_of(ins.tms(1)?, ty))
        }
        15 => R::Tm(f::record_of(ins.fields(|i| ins.tm(i))?)),
        16 => {
            ins.count(1)?;
            R::Tm(Term::Var(TermVar {
                id: name(param)?,
                ty: ins.ty(0)?,
            }))
        }
        20 => ins.one(f::not)?,
        21 => ins.two(f::and)?,
        22 => ins.two(f::or)?,
        23 => ins.two(f::implies)?,
        24 => ins.two(f::eq)?,
        25 => {
            ins.count(3)?;
            R::Tm(f::ite(ins.tm(0)?, ins.tm(1)?, ins.tm(2)?))
        }
        26 => {
            ins.count(2)?;
            let out = ins.ty(0)?;
            let t = ins.tm(1)?;
            let u = Uuf {
                id: name(param)?,
                arg: t.type_of(),
                out,
            };
            R::Tm(f::app(UnaryFunction::Uuf(Arc::new(u)), t))
        }
        30 => ins.one(f::bvneg)?,
        31 => ins.two(f::bvadd)?,
        32 => ins.two(f::bvsub)?,
        33 => ins.two(f::bvmul)?,
        34 => ins.two(f::bvsdiv)?,
        35 => ins.two(f::bvudiv)?,
        36 => ins.two(f::bvsrem)?,
        37 => ins.two(f::bvsmod)?,
        38 => ins.two(f::bvurem)?,
        39 | 40 => {
            ins.count(2)?;
            if is_huge_shift(&ins.tm(0)?, &ins.tm(1)?) {
                return Err(Out::Huge);
            }
            ins.two(if op == 39 { f::bvshl } else { f::bvlshr })?
        }
        41 => ins.two(f::bvslt)?,
        42 => ins.two(f::bvsle)?,
        43 => ins.two(f::bvult)?,
        44 => ins.two(f::bvule)?,
        45 => ins.one(f::bvnego)?,
        46 => ins.two(f::bvsaddo)?,
        47 => ins.two(f::bvssubo)?,
        48 => ins.two(f::bvsmulo)?,
        49 => {
            ins.count(1)?;
            let n = match u32::try_from(param) {
                Ok(n) if n < HUGE => n,
                _ => return Err(Out::Huge),
            };
            R::Tm(f::zero_extend(n, ins.tm(0)?))
        }
        50 => ins.two(f::set_member)?,
        51 => ins.two(f::set_subset)?,
        52 => ins.two(f::set_inter)?,
        53 => ins.one(f::set_is_empty)?,
        54 => ins.two(f::set_intersects)?,
        55 => ins.one(f::option_get)?,
        56 => {
            ins.count(1)?;
            R::Tm(f::record_get(ins.tm(0)?, &name(param)?))
        }
        60 => ins.one(f::is_none)?,
        61 => ins.one(f::is_some)?,
        62 => ins.two(f::if_false)?,
        63 => ins.two(f::if_true)?,
        64 => ins.two(f::if_some)?,
        65 => R::Tm(f::any_none(ins.tms(0)?)),
        66 => {
            let t = ins.tm(0)?;
            R::Tm(f::if_all_some(ins.tms(1)?, t))
        }
        70..=72 => {
            ins.count(1)?;
            let u = [UnaryOp::Not, UnaryOp::Neg, UnaryOp::IsEmpty][(op - 70) as usize];
            comp(compiler::oracle_compile_app1(u, ins.tm(0)?))?
        }
        73 => comp(compiler::compile_record(ins.fields(|i| ins.tm(i))?))?,
        74 | 75 => {
            ins.count(1)?;
            let (t, a) = (ins.tm(0)?, name(param)?);
            comp(if op == 74 {
                compiler::compile_has_attr(t, &a, &es())
            } else {
                compiler::compile_get_attr(t, &a, &es())
            })?
        }
        80..=88 => {
            ins.count(2)?;
            use BinaryOp::*;
            let b = [
                Eq, Less, LessEq, Add, Sub, Mul, Contains, ContainsAll, ContainsAny,
            ][(op - 80) as usize];
            comp(compiler::compile_app2(b, ins.tm(0)?, ins.tm(1)?, &es()))?
        }
        _ => return bad("unknown operation"),
    })
}
