//! The value of a formula by full expansion, for small formulas.

use crate::reader::{Formula, Quantifier};

/// The clauses left when a literal is set true: those that have it go, and its complement is taken out of the others.
fn set_true(clauses: &[Vec<u16>], literal: u16) -> Vec<Vec<u16>> {
    clauses
        .iter()
        .filter(|clause| !clause.contains(&literal))
        .map(|clause| clause.iter().copied().filter(|&l| l != literal ^ 1).collect())
        .collect()
}

fn value_from(prefix: &[(u32, Quantifier)], place: usize, clauses: &[Vec<u16>]) -> bool {
    if place == prefix.len() {
        return clauses.is_empty();
    }
    let positive = 2 * place as u16;
    let if_true = |_: ()| value_from(prefix, place + 1, &set_true(clauses, positive));
    let if_false = |_: ()| value_from(prefix, place + 1, &set_true(clauses, positive + 1));
    match prefix[place].1 {
        Quantifier::Existential => if_true(()) || if_false(()),
        Quantifier::Universal => if_true(()) && if_false(()),
    }
}

pub fn value(formula: &Formula) -> bool {
    value_from(&formula.prefix, 0, &formula.clauses)
}
