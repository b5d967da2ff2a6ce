//! Rules as words and what they say over a filled trace (Specification, Translation and Judging), for the
//! comparisons of the services that write and judge them.

use super::*;
use std::ops::Range;

/// A word of a rule's body or head.
pub struct Literal { pub symbol: u16, pub previous: bool, pub negated: bool }

/// A literal is a symbol, plus one number for the previous instant, plus another for negation.
pub fn literal(word: u16) -> Literal {
    let negated = word >= MARK_NOT;
    let rest = if negated { word - MARK_NOT } else { word };
    let previous = rest >= MARK_PREVIOUS;
    Literal { symbol: if previous { rest - MARK_PREVIOUS } else { rest }, previous, negated }
}

/// The literals of a rule.
pub fn literals(rule: &[u16]) -> impl Iterator<Item = Literal> + '_ { rule[1..].iter().map(|&word| literal(word)) }

/// What a literal is worth at an instant; one of the previous instant is never asked at the first.
fn worth(width: usize, cells: &[u8], literal: Literal, k: usize) -> u8 {
    let instant = if literal.previous { k - 1 } else { k };
    let value = match literal.symbol {
        SYMBOL_FALSE => 0,
        SYMBOL_TRUE => 2,
        column => cells[instant * width + (column - SYMBOL_COLUMN) as usize],
    };
    match (literal.negated, value) {
        (false, _) => value,
        (true, 0) => 2,
        (true, _) => 0,
    }
}

/// The instants of a place.
pub fn instants_of(place: u16, instants: usize) -> Range<usize> {
    match place {
        AT_EVERY => 0..instants,
        AT_FIRST => 0..1,
        AT_LATER => 1..instants,
        AT_LAST => instants - 1..instants,
        _ => unreachable!("an accepted place is one of these"),
    }
}

fn imp(u: u8, v: u8) -> u8 { if u <= v { 2 } else { v } }

/// Whether a rule holds at one of its instants.
pub fn holds_at(width: usize, cells: &[u8], rule: &[u16], k: usize) -> bool {
    let values: Vec<u8> = literals(rule).map(|literal| worth(width, cells, literal, k)).collect();
    let (body, head) = values.split_at(2);
    imp(*body.iter().min().expect("two"), *head.iter().max().expect("three")) == 2
}

/// How many bytes a word has.
pub const WORD_SIZE: usize = 2;

/// Words as they are in memory, and back.
pub fn as_bytes(words: &[u16]) -> Vec<u8> { words.iter().flat_map(|word| word.to_le_bytes()).collect() }

pub fn as_words(bytes: &[u8]) -> Vec<u16> {
    bytes.chunks_exact(WORD_SIZE).map(|word| u16::from_le_bytes([word[0], word[1]])).collect()
}
