//! What the comparisons share.
#![allow(dead_code, unused_imports)] // No comparison needs all of it.

macro_rules! parts {
    ($($name:ident),*) => { $(mod $name; pub use $name::*;)* };
}

parts!(cells, comparison, drawing, formulas, harm, inputs, library, numbers, postorder, rules, tree);
pub mod counted;
