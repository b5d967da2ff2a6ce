//! The numbers of the specification that have names, as in the header.

macro_rules! numbers {
    ($type:ty: $($name:ident = $value:expr),* $(,)?) => { $(pub const $name: $type = $value;)* };
}

// ---- sizes
numbers!(usize: RECORD_SIZE = 6, MOST_RECORDS = 255, MOST_RECORD_BYTES = RECORD_SIZE * MOST_RECORDS);
numbers!(usize: MOST_TEXT = 1530, MOST_ATOMS = 32, MOST_INSTANTS = 32, MOST_COLUMNS = 287);
numbers!(usize: RULE_SIZE = 6, MOST_RULES = 1021, MOST_RULE_WORDS = RULE_SIZE * MOST_RULES);

// ---- kinds
numbers!(u8: FALSE = 0, TRUE = 1, ATOM = 2, DIAMOND = 3, BOX = 4);
numbers!(u8: STEP = 5, BACK = 6, TEST = 7, CHOICE = 8, SEQUENCE = 9, STAR = 10);

// Shorthands, which only the expander takes.
numbers!(u8: NOT = 32, AND = 33, OR = 34, IMPLIES = 35, FINAL = 36, INITIAL = 37);
numbers!(u8: NEXT = 38, WEAK_NEXT = 39, PREVIOUS = 40, WEAK_PREVIOUS = 41);
numbers!(u8: EVENTUALLY = 42, ALWAYS = 43, ONCE = 44, SO_FAR = 45, UNTIL = 46, SINCE = 47);

// ---- words of rules: places, symbols, marks
numbers!(u16: AT_EVERY = 0, AT_FIRST = 1, AT_LATER = 2, AT_LAST = 3);
numbers!(u16: SYMBOL_FALSE = 0, SYMBOL_TRUE = 1, SYMBOL_COLUMN = 2);
numbers!(u16: MARK_PREVIOUS = 16_384, MARK_NOT = 32_768);

/// What is given back, numbered from 0 but for the last two.
#[derive(Clone, Copy, PartialEq, Debug)]
pub enum Refusal {
    Accepted, WrongLength, UnknownKind, NotZero, LateChild, NoSuchAtom, WrongSort, NotATree, WrongSize, WrongCell,
    NoRoom, StarStands, StarTurns, WrongRules, TooLong, NoSign = 18, NotTheForm = 19,
}

pub use Refusal::*;

impl Refusal {
    pub fn name(self) -> String { format!("{self:?}") }
    /// This refusal; where the input is accepted so far, the next one if it applies.
    pub fn or(self, next: Refusal, applies: impl FnOnce() -> bool) -> Refusal {
        if self == Accepted && applies() { next } else { self }
    }
}
