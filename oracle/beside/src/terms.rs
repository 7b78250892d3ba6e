//! Terms of both sides as numbers: equal terms have one number, whether they come from cells or from the original.
use crate::Node;
use num_bigint::BigUint;
use oracle::{name, op_number, unname, R};
use std::collections::HashMap;
use std::num::NonZeroU32;
use std::sync::Arc;
use symcc_orig::symcc::{
    bitvec::BitVec,
    op::{Op, Uuf},
    term::{Term, TermPrim, TermVar},
    term_type::TermType,
};

pub type Id = u64;

/// The numbers given. A term is known by its node, with numbers in place of positions and a set's members sorted by them.
#[derive(Default)]
pub struct Ids {
    given: HashMap<Node, Id>,
    types: Vec<Id>,
    /// What was walked, by its address and what stands beside that, so that a shared part is walked once.
    walked: HashMap<(usize, (u64, u64, Id)), Id>,
    /// Keeps every address in use.
    kept: Vec<R>,
}

impl Ids {
    fn put(&mut self, kind: u64, ty: Id, parameter: u64, members: Vec<Id>) -> Id {
        let next = self.types.len() as Id;
        let id = *self.given.entry(Node { kind, ty, parameter, members }).or_insert(next);
        if id == next {
            self.types.push(ty);
        }
        id
    }

    /// The number of a node, from those of the nodes that it names.
    pub fn of_node(&mut self, node: &Node, id_at: impl Fn(u64) -> Id) -> Id {
        let pairs = matches!(node.kind, 5 | 21);
        let named = |(i, &m): (usize, &u64)| if pairs && i % 2 == 0 { m } else { id_at(m) };
        let mut members: Vec<Id> = node.members.iter().enumerate().map(named).collect();
        if node.kind == 20 {
            members.sort_unstable();
        }
        let ty = if node.kind < 16 { 0 } else { id_at(node.ty) };
        self.put(node.kind, ty, node.parameter, members)
    }

    /// The number of what the original built.
    pub fn of_original(&mut self, result: &R) -> Id {
        self.kept.push(result.clone());
        match result {
            R::Ty(ty) => self.of_type(ty),
            R::Tm(t) => self.of_term(t),
            R::Failed => unreachable!("a failed operation gives no result"),
        }
    }

    /// What stands at an address is walked once; `beside` is what of the term stands elsewhere.
    fn once(&mut self, address: usize, beside: (u64, u64, Id), walk: impl FnOnce(&mut Ids) -> Id) -> Id {
        if let Some(&id) = self.walked.get(&(address, beside)) {
            return id;
        }
        let id = walk(self);
        self.walked.insert((address, beside), id);
        id
    }

    fn of_type(&mut self, ty: &TermType) -> Id {
        let (kind, parameter, members) = match ty {
            TermType::Bool => (1, 0, vec![]),
            TermType::Bitvec { n } => (2, u64::from(n.get()), vec![]),
            TermType::Option { ty } => (3, 0, vec![self.of_type(ty)]),
            TermType::Set { ty } => (4, 0, vec![self.of_type(ty)]),
            TermType::Record { rty } => {
                return self.once(Arc::as_ptr(rty) as usize, (5, 0, 0), |ids| {
                    let members = rty.iter().flat_map(|(a, ty)| [unname(a), ids.of_type(ty)]).collect();
                    ids.put(5, 0, 0, members)
                });
            }
            _ => unreachable!("type outside the domain"),
        };
        self.put(kind, 0, parameter, members)
    }

    fn of_term(&mut self, t: &Term) -> Id {
        match t {
            Term::Prim(p) => self.of_literal(p),
            Term::None(element) => {
                let element = self.of_type(element);
                let ty = self.put(3, 0, 0, vec![element]);
                self.put(18, ty, 0, vec![])
            }
            Term::Some(t) => {
                let t = self.of_term(t);
                let ty = self.put(3, 0, 0, vec![self.types[t as usize]]);
                self.put(19, ty, 0, vec![t])
            }
            Term::Set { elts_ty, elts } => {
                let element = self.of_type(elts_ty);
                let ty = self.put(4, 0, 0, vec![element]);
                self.once(Arc::as_ptr(elts) as usize, (20, 0, ty), |ids| {
                    let mut members: Vec<Id> = elts.iter().map(|t| ids.of_term(t)).collect();
                    members.sort_unstable();
                    ids.put(20, ty, 0, members)
                })
            }
            Term::Record(fields) => self.once(Arc::as_ptr(fields) as usize, (21, 0, 0), |ids| {
                let members: Vec<(u64, Id)> = fields.iter().map(|(a, t)| (unname(a), ids.of_term(t))).collect();
                let types = members.iter().flat_map(|&(a, t)| [a, ids.types[t as usize]]).collect();
                let ty = ids.put(5, 0, 0, types);
                ids.put(21, ty, 0, members.into_iter().flat_map(|(a, t)| [a, t]).collect())
            }),
            Term::Var(v) => {
                let ty = self.of_type(&v.ty);
                self.put(22, ty, unname(&v.id), vec![])
            }
            Term::App { op, args, ret_ty } => self.of_application(op, args, ret_ty),
        }
    }

    fn of_literal(&mut self, p: &TermPrim) -> Id {
        let ty = self.of_type(&p.type_of());
        match p {
            TermPrim::Bool(b) => self.put(16, ty, u64::from(*b), vec![]),
            TermPrim::Bitvec(b) => self.put(17, ty, u64::try_from(b.as_nat()).expect("64 bits"), vec![]),
            _ => unreachable!("literal outside the domain"),
        }
    }

    fn of_application(&mut self, op: &Op, args: &Arc<Vec<Term>>, ret_ty: &TermType) -> Id {
        let ty = self.of_type(ret_ty);
        let (number, parameter) = op_number(op);
        let (kind, parameter) = (100 + number, parameter.unwrap_or(0));
        let id = self.once(Arc::as_ptr(args) as usize, (kind, parameter, ty), |ids| {
            let members = args.iter().map(|t| ids.of_term(t)).collect();
            ids.put(kind, ty, parameter, members)
        });
        if let Op::Uuf(function) = op {
            let argument = self.of_term(&args[0]);
            assert_eq!(self.of_type(&function.arg), self.types[argument as usize], "a function's argument has another type");
            assert_eq!(self.of_type(&function.out), ty, "a function's result has another type");
        }
        id
    }
}

/// The original's term or type for a node, from those for the nodes that it names.
pub fn original_of(node: &Node, at: &[R]) -> R {
    let ty = |position: u64| match &at[position as usize] {
        R::Ty(ty) => ty.clone(),
        _ => unreachable!("a type stands there"),
    };
    let term = |position: u64| match &at[position as usize] {
        R::Tm(t) => t.clone(),
        _ => unreachable!("a term stands there"),
    };
    let id = |n: u64| name(n).ok().expect("a number below 2^32");
    let (members, parameter) = (&node.members, node.parameter);
    let element = || match ty(node.ty) {
        TermType::Option { ty } | TermType::Set { ty } => Arc::unwrap_or_clone(ty),
        _ => unreachable!("an option's or a set's type stands there"),
    };
    R::Tm(match node.kind {
        1 => return R::Ty(TermType::Bool),
        2 => return R::Ty(TermType::Bitvec { n: width(parameter) }),
        3 => return R::Ty(TermType::option_of(ty(members[0]))),
        4 => return R::Ty(TermType::set_of(ty(members[0]))),
        5 => return R::Ty(TermType::Record { rty: Arc::new(members.chunks(2).map(|f| (id(f[0]), ty(f[1]))).collect()) }),
        16 => (parameter == 1).into(),
        17 => literal(ty(node.ty), parameter),
        18 => Term::None(element()),
        19 => Term::Some(Arc::new(term(members[0]))),
        20 => Term::Set { elts_ty: element(), elts: Arc::new(members.iter().map(|&m| term(m)).collect()) },
        21 => Term::Record(Arc::new(members.chunks(2).map(|f| (id(f[0]), term(f[1]))).collect())),
        22 => Term::Var(TermVar { id: id(parameter), ty: ty(node.ty) }),
        126 => {
            let function = Uuf { id: id(parameter), arg: term(members[0]).type_of(), out: ty(node.ty) };
            Term::App { op: Op::Uuf(Arc::new(function)), args: Arc::new(vec![term(members[0])]), ret_ty: ty(node.ty) }
        }
        kind => {
            let args = Arc::new(members.iter().map(|&m| term(m)).collect());
            Term::App { op: operator(kind - 100, parameter), args, ret_ty: ty(node.ty) }
        }
    })
}

fn width(n: u64) -> NonZeroU32 {
    NonZeroU32::new(n as u32).expect("a width is not 0")
}

fn literal(ty: TermType, value: u64) -> Term {
    match ty {
        TermType::Bitvec { n } => BitVec::of_nat(n, BigUint::from(value)).into(),
        _ => unreachable!("a Bitvec type stands there"),
    }
}

fn operator(number: u64, parameter: u64) -> Op {
    match number {
        49 => return Op::ZeroExtend(parameter as u32),
        56 => return Op::RecordGet(name(parameter).ok().expect("a number below 2^32")),
        _ => {}
    }
    #[rustfmt::skip]
    let plain = [
        Op::Not, Op::And, Op::Or, Op::Eq, Op::Ite, Op::Bvneg, Op::Bvadd, Op::Bvsub, Op::Bvmul, Op::Bvsdiv, Op::Bvudiv, Op::Bvsrem,
        Op::Bvsmod, Op::Bvurem, Op::Bvshl, Op::Bvlshr, Op::Bvslt, Op::Bvsle, Op::Bvult, Op::Bvule, Op::Bvnego, Op::Bvsaddo,
        Op::Bvssubo, Op::Bvsmulo, Op::SetMember, Op::SetSubset, Op::SetInter, Op::OptionGet,
    ];
    plain.into_iter().find(|op| op_number(op).0 == number).expect("an operation that stands as a node")
}
