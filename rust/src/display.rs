use crate::{Arena, Node, Term};
use std::{collections::BTreeMap, fmt};

/// How deep a line goes, so that the deepest term can be written on any stack.
const LEVELS: usize = 64;

/// A term in words like SMT-LIB's, for people to read. [`Arena::display`] gives it.
///
/// A variable is `v` and its id, an uninterpreted function `f` and its id; a colon stands before a type, and between an attribute and its
/// field. A part that is used more than once has a line before the term, `let tP = ..` with its position P; so has every 64th level.
pub struct Display<'a> {
    parts: BTreeMap<u64, Part<'a>>,
    term: u64,
}

#[derive(Clone, Copy)]
struct Part<'a> {
    node: Node<'a>,
    uses: usize,
    height: usize,
}

impl Arena {
    /// The term in readable form, if it is one of this arena.
    pub fn display(&self, term: Term) -> Option<Display<'_>> {
        let mut parts: BTreeMap<u64, Part<'_>> = BTreeMap::new();
        // a node is above those that it names: upwards their heights are known, downwards their uses
        for node in self.nodes() {
            let height = 1 + named(&node).map(|position| parts[&position].height).max().unwrap_or(0);
            parts.insert(node.position, Part { node, uses: 0, height });
        }
        let term = parts.get(&term.position()).filter(|part| part.node.kind >= 16)?.node.position;
        parts.get_mut(&term)?.uses = 1;
        let downwards: Vec<u64> = parts.range(..=term).rev().map(|(&position, _)| position).collect();
        for position in downwards {
            let Part { node, uses, .. } = parts[&position];
            for below in named(&node).filter(|_| uses > 0) {
                parts.entry(below).and_modify(|part| part.uses += 1);
            }
        }
        Some(Display { parts, term })
    }
}

/// The positions that are written of a node: its members, of fields the second of each pair, and a type that nothing else shows.
fn named<'a>(node: &Node<'a>) -> impl Iterator<Item = u64> + 'a {
    let ty = shows_type(node.kind).then_some(node.ty);
    ty.into_iter().chain(members(node))
}

fn members<'a>(node: &Node<'a>) -> impl Iterator<Item = u64> + 'a {
    let fields = usize::from(has_fields(node.kind));
    node.members.iter().copied().skip(fields).step_by(1 + fields)
}

fn has_fields(kind: u64) -> bool {
    matches!(kind, 5 | 21)
}

fn shows_type(kind: u64) -> bool {
    matches!(kind, 17 | 18 | 20 | 22 | 126)
}

/// The operations that stand as application nodes, from 20 on.
#[rustfmt::skip]
const NAMES: [&str; 37] = [
    "not", "and", "or", "", "=", "ite", "", "", "", "",
    "bvneg", "bvadd", "bvsub", "bvmul", "bvsdiv", "bvudiv", "bvsrem", "bvsmod", "bvurem", "bvshl", "bvlshr",
    "bvslt", "bvsle", "bvult", "bvule", "bvnego", "bvsaddo", "bvssubo", "bvsmulo", "zero_extend",
    "set.member", "set.subset", "set.inter", "", "", "option.get", "record.get",
];

fn word(node: &Node<'_>, f: &mut fmt::Formatter<'_>) -> fmt::Result {
    let n = node.parameter;
    match node.kind {
        1 => write!(f, "Bool"),
        2 => write!(f, "BV{n}"),
        3 => write!(f, "Option"),
        4 => write!(f, "Set"),
        5 => write!(f, "Record"),
        16 => write!(f, "{}", n == 1),
        17 => write!(f, "{n}"),
        18 => write!(f, "none"),
        19 => write!(f, "some"),
        20 => write!(f, "set"),
        21 => write!(f, "record"),
        22 => write!(f, "v{n}"),
        126 => write!(f, "f{n}"),
        149 | 156 => write!(f, "{} {n}", NAMES[node.kind as usize - 120]),
        kind => write!(f, "{}", NAMES[kind as usize - 120]),
    }
}

impl Display<'_> {
    /// Whether a part has a line of its own: used more than once, or many levels high. A leaf never has.
    fn has_line(&self, position: u64) -> bool {
        let Part { node, uses, height } = self.parts[&position];
        position != self.term && uses > 0 && !node.members.is_empty() && (uses > 1 || height % LEVELS == 0)
    }

    fn part(&self, position: u64, f: &mut fmt::Formatter<'_>) -> fmt::Result {
        if self.has_line(position) {
            return write!(f, "t{position}");
        }
        self.line(position, f)
    }

    fn line(&self, position: u64, f: &mut fmt::Formatter<'_>) -> fmt::Result {
        let node = &self.parts[&position].node;
        let leaf = matches!(node.kind, 1 | 2 | 16..=18 | 22);
        write!(f, "{}", if leaf { "" } else { "(" })?;
        word(node, f)?;
        if shows_type(node.kind) {
            write!(f, ":")?;
            self.part(node.ty, f)?;
        }
        for (i, member) in members(node).enumerate() {
            write!(f, " ")?;
            if has_fields(node.kind) {
                write!(f, "{}:", node.members[2 * i])?;
            }
            self.part(member, f)?;
        }
        write!(f, "{}", if leaf { "" } else { ")" })
    }
}

impl fmt::Display for Display<'_> {
    fn fmt(&self, f: &mut fmt::Formatter<'_>) -> fmt::Result {
        for &position in self.parts.keys().filter(|&&position| self.has_line(position)) {
            write!(f, "let t{position} = ")?;
            self.line(position, f)?;
            writeln!(f)?;
        }
        self.line(self.term, f)
    }
}
