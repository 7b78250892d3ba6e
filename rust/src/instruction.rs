use crate::{Term, Type};
use std::marker::PhantomData;

/// One instruction: an operation by name, its parameter and its operands. `P` is what it builds, a [`Term`] or a [`Type`].
///
/// The names and the order of operands are document 01's. Nothing is tested here: the arena answers.
#[derive(Clone, Debug, PartialEq, Eq)]
pub struct Instruction<P> {
    operation: u64,
    parameter: u64,
    operands: Vec<u64>,
    builds: PhantomData<P>,
}

impl<P> Instruction<P> {
    fn new(operation: u64, parameter: u64, operands: Vec<u64>) -> Self {
        Instruction { operation, parameter, operands, builds: PhantomData }
    }

    /// Document 01's number of the operation.
    pub fn operation(&self) -> u64 {
        self.operation
    }

    /// The parameter, 0 where none is taken.
    pub fn parameter(&self) -> u64 {
        self.parameter
    }

    /// The operands as numbers.
    pub fn operands(&self) -> &[u64] {
        &self.operands
    }
}

fn positions(terms: &[Term]) -> impl Iterator<Item = u64> + '_ {
    terms.iter().map(|t| t.position())
}

fn fields<'a>(fields: &'a [(u64, Term)]) -> impl Iterator<Item = u64> + 'a {
    fields.iter().flat_map(|&(attribute, t)| [attribute, t.position()])
}

/// The types, 1 to 5.
impl Instruction<Type> {
    /// 1: Bool.
    pub fn bool_type() -> Self {
        Self::new(1, 0, vec![])
    }

    /// 2: Bitvec of a width, 1 to 64.
    pub fn bitvec_type(width: u64) -> Self {
        Self::new(2, width, vec![])
    }

    /// 3: Option of a type.
    pub fn option_type(element: Type) -> Self {
        Self::new(3, 0, vec![element.position()])
    }

    /// 4: Set of a type that contains no set.
    pub fn set_type(element: Type) -> Self {
        Self::new(4, 0, vec![element.position()])
    }

    /// 5: Record of attributes, which strictly rise, with their types.
    pub fn record_type(fields: &[(u64, Type)]) -> Self {
        Self::new(5, 0, fields.iter().flat_map(|&(attribute, ty)| [attribute, ty.position()]).collect())
    }
}

/// The makers, 10 to 16.
impl Instruction<Term> {
    /// 10: a bool literal.
    pub fn bool_literal(value: bool) -> Self {
        Self::new(10, value as u64, vec![])
    }

    /// 11: a bitvec literal, its value and its Bitvec type.
    pub fn bitvec_literal(value: u64, ty: Type) -> Self {
        Self::new(11, value, vec![ty.position()])
    }

    /// 12: None of an element type.
    pub fn none(element: Type) -> Self {
        Self::new(12, 0, vec![element.position()])
    }

    /// 14: a set of an element type with the terms listed.
    pub fn set(element: Type, terms: &[Term]) -> Self {
        Self::new(14, 0, std::iter::once(element.position()).chain(positions(terms)).collect())
    }

    /// 15: a record; of equal attributes the last wins.
    pub fn record(list: &[(u64, Term)]) -> Self {
        Self::new(15, 0, fields(list).collect())
    }

    /// 16: a variable, its id and its type.
    pub fn variable(id: u64, ty: Type) -> Self {
        Self::new(16, id, vec![ty.position()])
    }

    /// 26: an uninterpreted application, its id, its result type and the term that it is applied to.
    pub fn uninterpreted(id: u64, result: Type, t: Term) -> Self {
        Self::new(26, id, vec![result.position(), t.position()])
    }

    /// 49: zero_extend, which adds `n` to the width.
    pub fn zero_extend(n: u64, t: Term) -> Self {
        Self::new(49, n, vec![t.position()])
    }

    /// 56: the field of an attribute.
    pub fn record_get(attribute: u64, record: Term) -> Self {
        Self::new(56, attribute, vec![record.position()])
    }

    /// 65: whether any of up to 256 options is none.
    pub fn any_none(options: &[Term]) -> Self {
        Self::new(65, 0, positions(options).collect())
    }

    /// 66: none if any of up to 256 options is none, else the term.
    pub fn if_all_some(t: Term, options: &[Term]) -> Self {
        Self::new(66, 0, std::iter::once(t.position()).chain(positions(options)).collect())
    }

    /// 73: the compiled record, whose fields are options.
    pub fn compiled_record(list: &[(u64, Term)]) -> Self {
        Self::new(73, 0, fields(list).collect())
    }

    /// 74: whether a record has an attribute that is not none.
    pub fn compiled_has_attr(attribute: u64, record: Term) -> Self {
        Self::new(74, attribute, vec![record.position()])
    }

    /// 75: the compiled field of an attribute.
    pub fn compiled_get_attr(attribute: u64, record: Term) -> Self {
        Self::new(75, attribute, vec![record.position()])
    }
}

macro_rules! of_terms {
    ($($number:literal $name:ident ($($operand:ident),+): $words:literal;)+) => {
        /// The operations that list a fixed number of terms and take no parameter.
        impl Instruction<Term> {
            $(
                #[doc = concat!(stringify!($number), ": ", $words, ".")]
                pub fn $name($($operand: Term),+) -> Self {
                    Self::new($number, 0, vec![$($operand.position()),+])
                }
            )+
        }
    };
}

of_terms! {
    13 some(t): "Some of a term";
    20 not(t): "the opposite of a Bool";
    21 and(t, u): "whether both Bools hold";
    22 or(t, u): "whether one of two Bools holds";
    23 implies(t, u): "whether the second Bool holds if the first does";
    24 eq(t, u): "whether two terms of one type are equal";
    25 ite(g, t, u): "the second where the Bool holds, else the third, of one type";
    30 neg(t): "the negative, within the width";
    31 add(t, u): "the sum, within the width";
    32 sub(t, u): "the difference, within the width";
    33 mul(t, u): "the product, within the width";
    34 sdiv(t, u): "the signed quotient";
    35 udiv(t, u): "the unsigned quotient";
    36 srem(t, u): "the signed remainder, with the dividend's sign";
    37 smod(t, u): "the signed remainder, with the divisor's sign";
    38 urem(t, u): "the unsigned remainder";
    39 shl(t, u): "shifted left";
    40 lshr(t, u): "shifted right, with zeros";
    41 slt(t, u): "signed less than";
    42 sle(t, u): "signed less than or equal";
    43 ult(t, u): "unsigned less than";
    44 ule(t, u): "unsigned less than or equal";
    45 nego(t): "whether the signed negative overflows";
    46 saddo(t, u): "whether the signed sum overflows";
    47 ssubo(t, u): "whether the signed difference overflows";
    48 smulo(t, u): "whether the signed product overflows";
    50 member(element, set): "whether a set has an element";
    51 subset(s, t): "whether the second set has all of the first";
    52 inter(s, t): "what two sets have in common";
    53 is_empty(set): "whether a set is empty";
    54 intersects(s, t): "whether two sets have an element in common";
    55 option_get(option): "what an option holds";
    60 is_none(option): "whether an option is none";
    61 is_some(option): "whether an option is some";
    62 if_false(g, t): "none where the Bool holds, else Some of the term";
    63 if_true(g, t): "Some of the term where the Bool holds, else none";
    64 if_some(option, t): "none where the option is none, else the term";
    70 compiled_not(t): "the compiled Not of a Bool";
    71 compiled_neg(t): "the compiled Neg of a 64-bit term, none on overflow";
    72 compiled_is_empty(set): "the compiled IsEmpty of a set";
}
