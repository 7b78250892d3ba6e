//! Runs instructions on the original cedar-policy-symcc code. ../README.md has the language.
use oracle::{op_number, run, unname, Ins, Operand, Out, R};
use std::collections::HashMap;
use std::fmt::Write as _;
use std::io::{BufRead, Write as _};
use std::panic::{catch_unwind, AssertUnwindSafe};
use std::sync::Arc;
use symcc_orig::symcc::{
    op::Op,
    term::{Term, TermPrim},
    term_type::TermType,
};

// ---------- canonical text ----------

fn ty_text(t: &TermType, o: &mut String) {
    match t {
        TermType::Bool => o.push_str("Bool"),
        TermType::Bitvec { n } => write!(o, "BV{n}").unwrap(),
        TermType::Option { ty } => {
            o.push_str("Opt(");
            ty_text(ty, o);
            o.push(')');
        }
        TermType::Set { ty } => {
            o.push_str("Set(");
            ty_text(ty, o);
            o.push(')');
        }
        TermType::Record { rty } => {
            o.push_str("Rec{");
            for (i, (a, t)) in rty.iter().enumerate() {
                if i > 0 {
                    o.push(',');
                }
                write!(o, "{}:", unname(a)).unwrap();
                ty_text(t, o);
            }
            o.push('}');
        }
        _ => unreachable!("type outside the domain"),
    }
}

fn op_text(op: &Op, o: &mut String) {
    match op_number(op) {
        (n, None) => write!(o, "op{n}").unwrap(),
        (n, Some(param)) => write!(o, "op{n}.{param}").unwrap(),
    }
}

fn text(t: &Term, o: &mut String) {
    match t {
        Term::Prim(TermPrim::Bool(b)) => write!(o, "{b}").unwrap(),
        Term::Prim(TermPrim::Bitvec(b)) => write!(o, "{}:{}", b.as_nat(), b.width()).unwrap(),
        Term::Prim(_) => unreachable!("literal outside the domain"),
        Term::None(ty) => {
            o.push_str("None");
            ty_text(ty, o);
        }
        Term::Some(t) => {
            o.push_str("Some(");
            text(t, o);
            o.push(')');
        }
        Term::Set { elts_ty, elts } => {
            o.push('{');
            ty_text(elts_ty, o);
            o.push('|');
            let mut v: Vec<String> = elts
                .iter()
                .map(|t| {
                    let mut s = String::new();
                    text(t, &mut s);
                    s
                })
                .collect();
            v.sort();
            o.push_str(&v.join(","));
            o.push('}');
        }
        Term::Record(r) => {
            o.push('[');
            for (i, (a, t)) in r.iter().enumerate() {
                if i > 0 {
                    o.push(',');
                }
                write!(o, "{}=", unname(a)).unwrap();
                text(t, o);
            }
            o.push(']');
        }
        Term::Var(v) => {
            write!(o, "v{}:", unname(&v.id)).unwrap();
            ty_text(&v.ty, o);
        }
        Term::App { op, args, ret_ty } => {
            o.push('(');
            op_text(op, o);
            for a in args.iter() {
                o.push(' ');
                text(a, o);
            }
            o.push(')');
            ty_text(ret_ty, o);
        }
    }
}

// ---------- tree sizes (shared parts counted once per occurrence, memoised by Arc) ----------

type Memo = HashMap<usize, u64>;

fn ty_size(t: &TermType, m: &mut Memo) -> u64 {
    let (key, inner): (usize, Vec<&TermType>) = match t {
        TermType::Option { ty } | TermType::Set { ty } => (Arc::as_ptr(ty) as usize, vec![&**ty]),
        TermType::Record { rty } => (Arc::as_ptr(rty) as usize, rty.values().collect()),
        _ => return 1,
    };
    if let Some(s) = m.get(&key) {
        return s.saturating_add(1);
    }
    let mut s = 0u64;
    for i in inner {
        s = s.saturating_add(ty_size(i, m));
    }
    m.insert(key, s);
    s.saturating_add(1)
}

fn size(t: &Term, m: &mut Memo) -> u64 {
    let (key, own, inner): (usize, u64, Vec<&Term>) = match t {
        Term::Prim(_) => return 1,
        Term::None(ty) => return ty_size(ty, m).saturating_add(1),
        Term::Var(v) => return ty_size(&v.ty, m).saturating_add(1),
        Term::Some(t) => (Arc::as_ptr(t) as usize, 1, vec![&**t]),
        Term::Set { elts_ty, elts } => {
            let o = ty_size(elts_ty, m).saturating_add(1);
            (Arc::as_ptr(elts) as usize, o, elts.iter().collect())
        }
        Term::Record(r) => (Arc::as_ptr(r) as usize, 1, r.values().collect()),
        Term::App { args, ret_ty, .. } => {
            let o = ty_size(ret_ty, m).saturating_add(1);
            (Arc::as_ptr(args) as usize, o, args.iter().collect())
        }
    };
    if let Some(s) = m.get(&key) {
        return s.saturating_add(own);
    }
    let mut s = 0u64;
    for i in inner {
        s = s.saturating_add(size(i, m));
    }
    m.insert(key, s);
    s.saturating_add(own)
}

fn step(line: &str, results: &[R]) -> Out {
    let mut it = line.split_ascii_whitespace();
    let num = |s: Option<&str>| s.and_then(|s| s.parse::<u64>().ok());
    let (Some(op), Some(param)) = (num(it.next()), num(it.next())) else {
        return Out::Bad("syntax".into());
    };
    let mut operands = Vec::new();
    for w in it {
        operands.push(match w.strip_prefix('#') {
            Some(k) => match k.parse() {
                Ok(k) => Operand::Ref(k),
                Err(_) => return Out::Bad("syntax".into()),
            },
            None => match w.parse() {
                Ok(n) => Operand::Num(n),
                Err(_) => return Out::Bad("syntax".into()),
            },
        });
    }
    match run(op, param, &Ins { operands, results }) {
        Ok(r) => Out::R(r),
        Err(o) => o,
    }
}

/// The answer to one line, and what later lines can refer to.
fn answer(line: &str, results: &[R], max: u64) -> (String, R) {
    let r = match catch_unwind(AssertUnwindSafe(|| step(line, results))) {
        Err(_) => return ("panic".to_string(), R::Failed),
        Ok(Out::Error(e)) => return (format!("error {e}"), R::Failed),
        Ok(Out::Huge) => return ("huge".to_string(), R::Failed),
        Ok(Out::Bad(e)) => return (format!("bad {e}"), R::Failed),
        Ok(Out::R(r)) => r,
    };
    let mut s = String::new();
    let n = match &r {
        R::Ty(t) => ty_size(t, &mut Memo::new()),
        R::Tm(t) => size(t, &mut Memo::new()),
        R::Failed => 0,
    };
    if n > max {
        return (format!("toobig {n}"), R::Failed);
    }
    match &r {
        R::Ty(t) => ty_text(t, &mut s),
        R::Tm(t) => text(t, &mut s),
        R::Failed => unreachable!("a failed operation gives no result"),
    }
    (s, r)
}

fn oracle() {
    let max: u64 = std::env::var("ORACLE_MAX_NODES")
        .ok()
        .and_then(|s| s.parse().ok())
        .unwrap_or(1_000_000);
    if std::env::var_os("ORACLE_PANICS").is_none() {
        std::panic::set_hook(Box::new(|_| {}));
    }
    let mut out = std::io::BufWriter::with_capacity(1 << 20, std::io::stdout());
    let mut results: Vec<R> = Vec::new();
    for line in std::io::stdin().lock().lines() {
        let line = line.expect("stdin");
        if line.trim() == "reset" {
            results.clear();
            writeln!(out, "reset").unwrap();
            continue;
        }
        let (s, r) = answer(&line, &results, max);
        writeln!(out, "{s}").unwrap();
        results.push(r);
    }
    out.flush().unwrap();
}

fn main() {
    // The derived Eq, Ord and Drop recurse over the term, so deep terms need a deep stack.
    std::thread::Builder::new()
        .stack_size(1 << 30)
        .spawn(oracle)
        .unwrap()
        .join()
        .unwrap();
}
