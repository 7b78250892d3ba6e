//! Document 01's sentence on well-formed arenas and its table of refusals, read anew: nothing here calls the library.
use crate::Instruction;
use std::collections::{BTreeMap, HashSet};

/// Attributes and ids are below it.
const SMALL: u64 = 1 << 32;

/// A node's cells: header and members.
#[derive(Clone, Debug, PartialEq, Eq, Hash)]
pub struct Node {
    pub kind: u64,
    pub ty: u64,
    pub parameter: u64,
    pub members: Vec<u64>,
}

/// The nodes of a well-formed arena by their positions. No two are the same, so types are equal where their positions are.
#[derive(Clone, Default)]
pub struct Nodes {
    at: BTreeMap<u64, Node>,
    seen: HashSet<Node>,
    over_sets: HashSet<u64>,
    trees: BTreeMap<u64, u64>,
}

enum Sort {
    Type,
    Term,
}

/// What an operation lists: so many operands; pairs of an attribute and one of a sort; so many, and then a run of terms.
enum Form {
    Listed(&'static [Sort]),
    Pairs(Sort),
    Run(&'static [Sort]),
}

fn form_of(operation: u64) -> Option<Form> {
    use Sort::{Term, Type};
    Some(match operation {
        1 | 2 | 10 => Form::Listed(&[]),
        3 | 4 | 11 | 12 | 16 => Form::Listed(&[Type]),
        5 => Form::Pairs(Type),
        15 | 73 => Form::Pairs(Term),
        14 => Form::Run(&[Type]),
        65 => Form::Run(&[]),
        66 => Form::Run(&[Term]),
        25 => Form::Listed(&[Term, Term, Term]),
        26 => Form::Listed(&[Type, Term]),
        13 | 20 | 30 | 45 | 49 | 53 | 55 | 56 | 60 | 61 | 70..=72 | 74 | 75 => Form::Listed(&[Term]),
        21..=24 | 31..=44 | 46..=48 | 50..=52 | 54 | 62..=64 => Form::Listed(&[Term, Term]),
        _ => return None,
    })
}

fn takes_parameter(operation: u64) -> bool {
    matches!(operation, 2 | 10 | 11 | 16 | 26 | 49 | 56 | 74 | 75)
}

fn rises(numbers: impl Iterator<Item = u64>) -> bool {
    let numbers: Vec<u64> = numbers.collect();
    numbers.windows(2).all(|two| two[0] < two[1])
}

fn attributes(pairs: &[u64]) -> impl Iterator<Item = u64> + '_ {
    pairs.iter().copied().step_by(2)
}

fn fields(pairs: &[u64]) -> impl Iterator<Item = u64> + '_ {
    pairs.iter().copied().skip(1).step_by(2)
}

fn is_field_list(pairs: &[u64]) -> bool {
    pairs.len().is_multiple_of(2) && pairs.len() <= 128 && rises(attributes(pairs)) && attributes(pairs).all(|a| a < SMALL)
}

fn fits_width(value: u64, width: u64) -> bool {
    width == 64 || value < 1 << width
}

/// Well-formed arenas.
impl Nodes {
    /// The nodes that fill the cells up to the mark, if that is a well-formed arena.
    pub fn read(cells: &[u64], mark: u64) -> Option<Nodes> {
        let used = cells.get(..usize::try_from(mark).ok()?)?;
        if !(12..=65_536).contains(&cells.len()) || cells[used.len()..].iter().any(|&cell| cell != 0) {
            return None;
        }
        let mut nodes = Nodes::default();
        nodes.take(used, 0)?;
        let fresh = [(0, 1, 0), (4, 16, 0), (8, 16, 1)];
        let stands =
            |&(position, kind, parameter)| nodes.at.get(&position) == Some(&Node { kind, ty: 0, parameter, members: vec![] });
        fresh.iter().all(stands).then_some(nodes)
    }

    /// Takes the nodes that fill some cells exactly, the first of which starts at a position.
    pub fn take(&mut self, mut cells: &[u64], mut position: u64) -> Option<()> {
        while !cells.is_empty() {
            let (&[kind, ty, parameter, count], behind) = cells.split_first_chunk::<4>()?;
            let (members, behind) = behind.split_at_checked(usize::try_from(count).ok()?)?;
            self.push(position, Node { kind, ty, parameter, members: members.to_vec() })?;
            cells = behind;
            position += 4 + count;
        }
        Some(())
    }

    /// Takes one node, if it is a new one and may stand over those that are there.
    pub fn push(&mut self, position: u64, node: Node) -> Option<()> {
        if !self.admits(&node) || !self.seen.insert(node.clone()) {
            return None;
        }
        if node.kind == 4 || node.kind < 16 && node.members.iter().any(|m| self.over_sets.contains(m)) {
            self.over_sets.insert(position);
        }
        let own = if node.kind < 16 { 1 } else { self.tree(node.ty).saturating_add(1) };
        let tree = node.members.iter().map(|&m| self.tree(m)).fold(own, u64::saturating_add);
        self.trees.insert(position, tree);
        self.at.insert(position, node);
        Some(())
    }

    /// How many nodes a term or a type has, written as a tree; 0 where none starts.
    pub fn tree(&self, position: u64) -> u64 {
        self.trees.get(&position).copied().unwrap_or(0)
    }

    /// Whether a node is in order, over those that are there.
    pub fn admits(&self, node: &Node) -> bool {
        match node.kind {
            1..=5 => node.ty == 0 && self.admits_type(node),
            16..=22 => self.is_type(node.ty) && self.admits_made(node),
            100.. => self.is_type(node.ty) && self.admits_applied(node),
            _ => false,
        }
    }

    fn admits_type(&self, node: &Node) -> bool {
        let members = &node.members[..];
        match (node.kind, node.parameter, members) {
            (1, 0, []) => true,
            (2, width, []) => (1..=64).contains(&width),
            (3, 0, &[element]) => self.is_type(element),
            (4, 0, &[element]) => self.is_type(element) && !self.over_sets.contains(&element),
            (5, 0, _) => is_field_list(members) && fields(members).all(|t| self.is_type(t)),
            _ => false,
        }
    }

    fn admits_made(&self, node: &Node) -> bool {
        let members = &node.members[..];
        match (node.kind, self.kind(node.ty), node.parameter, members) {
            (16, 1, value, []) => value <= 1,
            (17, 2, value, []) => fits_width(value, self.width(node.ty)),
            (18, 3, 0, []) => true,
            (19, 3, 0, &[t]) => self.is_of_type(t, self.element(node.ty)),
            (20, 4, 0, _) => {
                let element = self.element(node.ty);
                members.len() <= 256 && rises(members.iter().copied()) && members.iter().all(|&t| self.is_of_type(t, element))
            }
            (21, 5, 0, _) => {
                let good = is_field_list(members) && fields(members).all(|t| self.is_term(t));
                good && self.at[&node.ty].members == self.field_types(members)
            }
            (22, _, id, []) => id < SMALL,
            _ => false,
        }
    }

    fn is_of_type(&self, term: u64, ty: u64) -> bool {
        self.is_term(term) && self.type_of(term) == ty
    }

    fn field_types(&self, members: &[u64]) -> Vec<u64> {
        attributes(members).zip(fields(members)).flat_map(|(attribute, t)| [attribute, self.type_of(t)]).collect()
    }

    fn admits_applied(&self, node: &Node) -> bool {
        let operation = node.kind - 100;
        let members = &node.members[..];
        let stands = matches!(operation, 20..=22 | 24..=26 | 30..=52 | 55 | 56);
        if !stands || !members.iter().all(|&m| self.is_term(m)) {
            return false;
        }
        match form_of(operation) {
            Some(Form::Listed([Sort::Type, rest @ ..])) => members.len() == rest.len() && node.parameter < SMALL,
            Some(Form::Listed(all)) => {
                members.len() == all.len()
                    && (node.parameter == 0 || takes_parameter(operation))
                    && self.types_fit(operation, members)
                    && self.is_result(node.ty, operation, node.parameter, members)
            }
            _ => false,
        }
    }

    /// Whether an application of operands that fit has this type.
    fn is_result(&self, ty: u64, operation: u64, parameter: u64, terms: &[u64]) -> bool {
        let first = self.type_of(terms[0]);
        match operation {
            20..=24 | 41..=48 | 50 | 51 => self.kind(ty) == 1,
            25 => ty == self.type_of(terms[1]),
            49 => self.kind(ty) == 2 && Some(self.width(ty)) == self.width(first).checked_add(parameter),
            55 => ty == self.element(first),
            56 => Some(ty) == self.field(first, parameter),
            _ => ty == first,
        }
    }
}

/// What stands at a position.
impl Nodes {
    pub fn positions(&self) -> impl Iterator<Item = u64> + '_ {
        self.at.keys().copied()
    }

    /// 0 where no node starts.
    pub fn kind(&self, position: u64) -> u64 {
        self.at.get(&position).map_or(0, |node| node.kind)
    }

    pub fn is_type(&self, position: u64) -> bool {
        (1..=5).contains(&self.kind(position))
    }

    pub fn is_term(&self, position: u64) -> bool {
        self.kind(position) >= 16
    }

    pub fn node(&self, position: u64) -> &Node {
        &self.at[&position]
    }

    pub fn type_of(&self, term: u64) -> u64 {
        self.at[&term].ty
    }

    pub fn width(&self, ty: u64) -> u64 {
        self.at[&ty].parameter
    }

    pub fn element(&self, ty: u64) -> u64 {
        self.at[&ty].members[0]
    }

    pub fn contains_set(&self, ty: u64) -> bool {
        self.over_sets.contains(&ty)
    }

    fn field(&self, record: u64, attribute: u64) -> Option<u64> {
        let members = &self.at[&record].members;
        attributes(members).zip(fields(members)).find(|&(a, _)| a == attribute).map(|(_, ty)| ty)
    }
}

/// The table of refusals.
impl Nodes {
    /// The smallest of the numbers 2 to 8 that applies to an instruction; 0 where none does.
    pub fn refusal(&self, instruction: &Instruction) -> u64 {
        let Instruction { operation, parameter, ref operands } = *instruction;
        let Some(form) = form_of(operation) else { return 2 };
        let tests: [&dyn Fn() -> bool; 7] = [
            &|| !form.counts(operands.len()) || parameter != 0 && !takes_parameter(operation),
            &|| form.is_too_long(operands.len()),
            &|| !self.sorts_fit(&form, operands),
            &|| !self.types_fit(operation, operands),
            &|| self.has_wrong_width(instruction),
            &|| self.is_too_large(instruction),
            &|| matches!(operation, 56 | 75) && self.field(self.type_of(operands[0]), parameter).is_none(),
        ];
        tests.iter().position(|applies| applies()).map_or(0, |i| i as u64 + 2)
    }

    fn is_of(&self, sort: &Sort, position: u64) -> bool {
        match sort {
            Sort::Type => self.is_type(position),
            Sort::Term => self.is_term(position),
        }
    }

    fn sorts_fit(&self, form: &Form, operands: &[u64]) -> bool {
        match form {
            Form::Pairs(sort) => fields(operands).all(|x| self.is_of(sort, x)),
            Form::Listed(sorts) | Form::Run(sorts) => {
                let (front, run) = operands.split_at(sorts.len());
                front.iter().zip(*sorts).all(|(&x, sort)| self.is_of(sort, x)) && run.iter().all(|&x| self.is_term(x))
            }
        }
    }

    fn types_fit(&self, operation: u64, xs: &[u64]) -> bool {
        let ty = |i: usize| self.type_of(xs[i]);
        let is = |t: u64, kind: u64| self.kind(self.type_of(t)) == kind;
        let all = |terms: &[u64], kind: u64| terms.iter().all(|&t| is(t, kind));
        match operation {
            4 => !self.contains_set(xs[0]),
            11 => self.kind(xs[0]) == 2,
            14 => !self.contains_set(xs[0]) && xs[1..].iter().all(|&t| self.type_of(t) == xs[0]),
            20..=23 | 70 => all(xs, 1),
            24 => ty(0) == ty(1),
            25 => is(xs[0], 1) && ty(1) == ty(2),
            30..=49 => all(xs, 2) && xs.iter().all(|&t| self.type_of(t) == ty(0)),
            50 => is(xs[1], 4) && self.element(ty(1)) == ty(0),
            51 | 52 | 54 => all(xs, 4) && ty(0) == ty(1),
            53 | 72 => is(xs[0], 4),
            55 | 60 | 61 | 64 => is(xs[0], 3),
            56 | 74 | 75 => is(xs[0], 5),
            62 | 63 => is(xs[0], 1),
            65 => all(xs, 3),
            66 => all(&xs[1..], 3),
            71 => is(xs[0], 2) && self.width(ty(0)) == 64,
            73 => fields(xs).all(|t| is(t, 3)),
            _ => true,
        }
    }

    fn has_wrong_width(&self, instruction: &Instruction) -> bool {
        let width = match instruction.operation {
            2 => instruction.parameter,
            49 => self.width(self.type_of(instruction.operands[0])).saturating_add(instruction.parameter),
            _ => return false,
        };
        !(1..=64).contains(&width)
    }

    fn is_too_large(&self, instruction: &Instruction) -> bool {
        let Instruction { operation, parameter, ref operands } = *instruction;
        match operation {
            5 => attributes(operands).any(|a| a >= SMALL) || !rises(attributes(operands)),
            10 => parameter > 1,
            11 => !fits_width(parameter, self.width(operands[0])),
            15 | 73 => attributes(operands).any(|a| a >= SMALL),
            16 | 26 | 56 | 74 | 75 => parameter >= SMALL,
            _ => false,
        }
    }
}

impl Form {
    fn counts(&self, n: usize) -> bool {
        match self {
            Form::Listed(sorts) => n == sorts.len(),
            Form::Pairs(_) => n.is_multiple_of(2),
            Form::Run(sorts) => n >= sorts.len(),
        }
    }

    fn is_too_long(&self, n: usize) -> bool {
        match self {
            Form::Listed(_) => false,
            Form::Pairs(_) => n / 2 > 64,
            Form::Run(sorts) => n - sorts.len() > 256,
        }
    }
}
