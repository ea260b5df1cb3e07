//! A plain reader: the text is first cut into words, then the words are taken one after the other.

use crate::{GREATEST_C, GREATEST_LENGTH, GREATEST_V};
use std::collections::BTreeSet;

#[derive(Clone, Copy, Debug, PartialEq, Eq)]
pub enum Quantifier {
    Universal,
    Existential,
}

#[derive(Clone, Debug, PartialEq, Eq)]
pub struct Formula {
    pub v: u32,
    pub c: u32,
    /// The bound variables, outermost first.
    pub prefix: Vec<(u32, Quantifier)>,
    /// The stored clauses as codes, each in the order in which its literals first stand.
    pub clauses: Vec<Vec<u16>>,
}

#[derive(Clone, Copy, Debug, PartialEq, Eq)]
pub struct Refusal {
    pub number: u8,
    pub offset: usize,
}

struct Word<'a> {
    offset: usize,
    line: usize,
    bytes: &'a [u8],
}

/// All words of the text, comments left out.
fn words(text: &[u8]) -> Vec<Word<'_>> {
    let mut found: Vec<Word> = Vec::new();
    let mut start = 0;
    for (line, bytes) in text.split(|&b| b == b'\n').enumerate() {
        let comment = found.is_empty() && bytes.first() == Some(&b'c');
        if !comment {
            let mut offset = start;
            for piece in bytes.split(|&b| b == b' ') {
                if !piece.is_empty() {
                    found.push(Word { offset, line, bytes: piece });
                }
                offset += piece.len() + 1;
            }
        }
        start += bytes.len() + 1;
    }
    found
}

/// A number by its spelling. Its value is None if it has more than four digits.
fn number(bytes: &[u8]) -> Option<Option<u32>> {
    let digits = !bytes.is_empty() && bytes.iter().all(|b| b.is_ascii_digit());
    if !digits || (bytes[0] == b'0' && bytes.len() > 1) {
        return None;
    }
    if bytes.len() > 4 {
        return Some(None);
    }
    Some(Some(bytes.iter().fold(0, |n, b| n * 10 + u32::from(b - b'0'))))
}

/// A literal or 0 by its spelling: whether it has a minus, and its number.
fn literal(bytes: &[u8]) -> Option<(bool, Option<u32>)> {
    match bytes.strip_prefix(b"-") {
        None => number(bytes).map(|n| (false, n)),
        Some(rest) => match number(rest) {
            None | Some(Some(0)) => None,
            Some(n) => Some((true, n)),
        },
    }
}

fn at_most(value: Option<u32>, greatest: u32) -> Option<u32> {
    value.filter(|&n| n <= greatest)
}

pub fn read(text: &[u8]) -> Result<Formula, Refusal> {
    if text.len() > GREATEST_LENGTH {
        return Err(Refusal { number: 1, offset: GREATEST_LENGTH });
    }
    let words = words(text);
    let end = |number| Refusal { number, offset: text.len() };
    let refuse = |number, word: &Word| Refusal { number, offset: word.offset };

    // The problem line: four words on one line.
    let first = words.first().ok_or(end(2))?;
    if first.bytes != b"p" {
        return Err(refuse(2, first));
    }
    let cnf = words.get(1).ok_or(end(2))?;
    if cnf.line != first.line || cnf.bytes != b"cnf" {
        return Err(refuse(2, cnf));
    }
    let mut counts = [0; 2];
    for (k, greatest) in [GREATEST_V, GREATEST_C].into_iter().enumerate() {
        let word = words.get(2 + k).ok_or(end(2))?;
        if word.line != first.line {
            return Err(refuse(2, word));
        }
        let value = number(word.bytes).ok_or(refuse(2, word))?;
        counts[k] = at_most(value, greatest).ok_or(refuse(3, word))?;
    }
    let [v, c] = counts;
    let mut next = 4;
    let mut finished_line = first.line;

    // The prefix lines.
    let mut prefix: Vec<(u32, Quantifier)> = Vec::new();
    while let Some(head) = words.get(next) {
        if head.line == finished_line {
            return Err(refuse(2, head));
        }
        let quantifier = match head.bytes {
            b"a" => Quantifier::Universal,
            b"e" => Quantifier::Existential,
            _ => break,
        };
        next += 1;
        let mut length = 0;
        loop {
            let word = words.get(next).ok_or(end(2))?;
            if word.line != head.line {
                return Err(refuse(2, word));
            }
            let value = number(word.bytes).ok_or(refuse(2, word))?;
            if value == Some(0) && length == 0 {
                return Err(refuse(2, word));
            }
            let variable = at_most(value, v).ok_or(refuse(3, word))?;
            next += 1;
            if variable == 0 {
                break;
            }
            if prefix.iter().any(|&(bound, _)| bound == variable) {
                return Err(refuse(4, word));
            }
            prefix.push((variable, quantifier));
            length += 1;
        }
        finished_line = head.line;
    }

    // The clauses.
    let mut clauses: Vec<Vec<u16>> = Vec::new();
    let mut known: BTreeSet<BTreeSet<u16>> = BTreeSet::new();
    let mut count = 0;
    let mut open: Option<Vec<u16>> = None;
    for word in &words[next..] {
        let (minus, value) = literal(word.bytes).ok_or(refuse(2, word))?;
        let variable = at_most(value, v).ok_or(refuse(3, word))?;
        let mut code = 0;
        if variable != 0 {
            let place = prefix.iter().position(|&(bound, _)| bound == variable).ok_or(refuse(5, word))?;
            code = 2 * place as u16 + u16::from(minus);
        }
        if open.is_none() && count == c {
            return Err(refuse(6, word));
        }
        let mut clause = open.take().unwrap_or_default();
        if variable != 0 {
            if !clause.contains(&code) {
                clause.push(code);
            }
            open = Some(clause);
        } else {
            count += 1;
            let both_signs = clause.iter().any(|&code| clause.contains(&(code ^ 1)));
            if !both_signs && known.insert(clause.iter().copied().collect()) {
                clauses.push(clause);
            }
        }
    }

    // The end.
    if open.is_some() || text.last() != Some(&b'\n') {
        return Err(end(2));
    }
    if count < c {
        return Err(end(6));
    }
    Ok(Formula { v, c, prefix, clauses })
}
