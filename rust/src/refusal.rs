use std::{error::Error, fmt};

/// Why a call changed nothing: document 01's numbers, 1 to 9.
#[derive(Clone, Copy, Debug, PartialEq, Eq, PartialOrd, Ord, Hash)]
#[repr(u64)]
pub enum Refusal {
    /// 1: arena length outside 12 to 65,536, mark above it, or arena not well formed.
    NotAnArena = 1,
    /// 2: unknown operation, wrong operand count, or a parameter not 0 where none is taken.
    NotAnInstruction = 2,
    /// 3: more set members, fields or options listed than the limit.
    TooMany = 3,
    /// 4: an operand is not the start of a term, or type, as needed.
    NotAPosition = 4,
    /// 5: an operand's type is not the one named, the type given to a bitvec literal is no Bitvec, or an element type contains a set.
    WrongType = 5,
    /// 6: width 0 or above 64, also after zero_extend.
    WrongWidth = 6,
    /// 7: literal not below 2 to the width; bool literal above 1; attribute or id too large; unordered type fields.
    TooLarge = 7,
    /// 8: absent attribute.
    AbsentAttribute = 8,
    /// 9: a node that the steps add does not fit below the arena's end.
    NoRoom = 9,
}

impl Refusal {
    const ALL: [Refusal; 9] = [
        Refusal::NotAnArena,
        Refusal::NotAnInstruction,
        Refusal::TooMany,
        Refusal::NotAPosition,
        Refusal::WrongType,
        Refusal::WrongWidth,
        Refusal::TooLarge,
        Refusal::AbsentAttribute,
        Refusal::NoRoom,
    ];

    /// Document 01's number.
    pub fn number(self) -> u64 {
        self as u64
    }

    /// The refusal with a number, which is 1 to 9.
    pub fn of_number(number: u64) -> Option<Refusal> {
        Refusal::ALL.into_iter().find(|r| r.number() == number)
    }
}

impl fmt::Display for Refusal {
    fn fmt(&self, f: &mut fmt::Formatter<'_>) -> fmt::Result {
        let words = match self {
            Refusal::NotAnArena => "arena length outside 12 to 65,536, mark above it, or arena not well formed",
            Refusal::NotAnInstruction => "unknown operation, wrong operand count, or a parameter not 0 where none is taken",
            Refusal::TooMany => "more set members, fields or options listed than the limit",
            Refusal::NotAPosition => "an operand is not the start of a term, or type, as needed",
            Refusal::WrongType => {
                "an operand's type is not the one named, the type given to a bitvec literal is no Bitvec, \
                 or an element type contains a set"
            }
            Refusal::WrongWidth => "width 0 or above 64, also after zero_extend",
            Refusal::TooLarge => {
                "literal not below 2 to the width; bool literal above 1; attribute or id too large; unordered type fields"
            }
            Refusal::AbsentAttribute => "absent attribute",
            Refusal::NoRoom => "a node that the steps add does not fit below the arena's end",
        };
        write!(f, "refused {}: {words}", self.number())
    }
}

impl Error for Refusal {}
