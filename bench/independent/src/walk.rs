//! The decision on sets of sets. Nothing here is numbered or shared: a clause is a list of rising codes, a clause set a
//! set of such lists, and the node table the set of all node sets made so far.

use crate::reader::{read, Formula, Quantifier};
use crate::{Answer, Limits, SPENT, TABLE_FULL, TOO_DEEP};
use std::collections::{BTreeSet, HashMap, HashSet};

pub type Clause = Vec<u16>;
pub type Set = BTreeSet<Clause>;

/// Why a run ends without a verdict: the number of the refusal.
type Stop = u8;

enum Reduced {
    Verdict(bool),
    Set(Set),
}

pub struct Run {
    limits: Limits,
    quantifiers: Vec<Quantifier>,
    table: HashSet<Set>,
    memo: HashMap<Set, bool>,
    splits: u32,
}

/// The lowest code of a set, if it has a clause that is not empty.
fn lowest_code(set: &Set) -> Option<u16> {
    set.iter().filter_map(|clause| clause.first().copied()).min()
}

fn with_side(set: &Set, code: u16) -> Set {
    set.iter().filter(|c| c.contains(&code)).map(|c| taken_out(c, code)).collect()
}

fn without_side(set: &Set, code: u16) -> Set {
    set.iter().filter(|c| !c.contains(&code)).cloned().collect()
}

fn taken_out(clause: &Clause, code: u16) -> Clause {
    clause.iter().copied().filter(|&l| l != code).collect()
}

impl Run {
    pub fn new(quantifiers: Vec<Quantifier>, limits: Limits) -> Run {
        Run { limits, quantifiers, table: HashSet::new(), memo: HashMap::new(), splits: 0 }
    }

    pub fn nodes(&self) -> usize {
        self.table.len()
    }

    pub fn pairs(&self) -> usize {
        self.memo.len()
    }

    pub fn splits(&self) -> u32 {
        self.splits
    }

    fn universal(&self, code: u16) -> bool {
        self.quantifiers[usize::from(code / 2)] == Quantifier::Universal
    }

    /// Makes a set: its nodes are the set itself and the nodes of its two sides. The sides go into the table first, so
    /// a set in the table has all its nodes there.
    fn make(&mut self, set: &Set) -> Result<(), Stop> {
        let Some(code) = lowest_code(set) else { return Ok(()) };
        if self.table.contains(set) {
            return Ok(());
        }
        self.make(&with_side(set, code))?;
        self.make(&without_side(set, code))?;
        if self.table.len() >= self.limits.nodes {
            return Err(TABLE_FULL);
        }
        self.table.insert(set.clone());
        Ok(())
    }

    /// Makes each stored clause alone, and after each the set of those so far.
    pub fn load(&mut self, clauses: &[Vec<u16>]) -> Result<Set, Stop> {
        let mut so_far = Set::new();
        for written in clauses {
            let mut clause = written.clone();
            clause.sort_unstable();
            self.make(&Set::from([clause.clone()]))?;
            so_far.insert(clause);
            self.make(&so_far)?;
        }
        Ok(so_far)
    }

    /// Sets a literal true. Four sets are made on the way.
    fn set_true(&mut self, set: &Set, literal: u16) -> Result<Set, Stop> {
        let complement = literal ^ 1;
        let kept = without_side(set, literal);
        self.make(&kept)?;
        let shortened = with_side(&kept, complement);
        self.make(&shortened)?;
        let untouched = without_side(&kept, complement);
        self.make(&untouched)?;
        let union = &shortened | &untouched;
        self.make(&union)?;
        Ok(union)
    }

    fn reduce(&mut self, mut set: Set) -> Result<Reduced, Stop> {
        loop {
            if set.contains(&Clause::new()) {
                return Ok(Reduced::Verdict(false));
            }
            if set.is_empty() {
                return Ok(Reduced::Verdict(true));
            }
            let single: BTreeSet<u16> = set.iter().filter(|c| c.len() == 1).map(|c| c[0]).collect();
            if single.iter().any(|&l| self.universal(l)) {
                return Ok(Reduced::Verdict(false));
            }
            if let Some(&literal) = single.first() {
                set = self.set_true(&set, literal)?;
                continue;
            }
            let occurring: BTreeSet<u16> = set.iter().flatten().copied().collect();
            let lone = occurring.iter().copied().find(|&l| !occurring.contains(&(l ^ 1)));
            let Some(literal) = lone else { return Ok(Reduced::Set(set)) };
            let chosen = if self.universal(literal) { literal ^ 1 } else { literal };
            set = self.set_true(&set, chosen)?;
        }
    }

    /// The variables that occur and belong to the outermost block that has any, by their places from 0.
    fn candidates(&self, set: &Set) -> Vec<usize> {
        let occurring: BTreeSet<usize> = set.iter().flatten().map(|&l| usize::from(l / 2)).collect();
        let outermost = *occurring.first().expect("a reduced set has a literal");
        let quantifier = self.quantifiers[outermost];
        let block_end = (outermost..self.quantifiers.len())
            .find(|&place| self.quantifiers[place] != quantifier)
            .unwrap_or(self.quantifiers.len());
        occurring.into_iter().filter(|&place| place < block_end).collect()
    }

    fn note(&mut self, set: Set, verdict: bool) {
        if self.memo.contains_key(&set) || self.memo.len() < self.limits.pairs {
            self.memo.insert(set, verdict);
        }
    }

    pub fn decide(&mut self, set: Set, open: usize) -> Result<bool, Stop> {
        let set = match self.reduce(set)? {
            Reduced::Verdict(verdict) => return Ok(verdict),
            Reduced::Set(set) => set,
        };
        if let Some(&verdict) = self.memo.get(&set) {
            return Ok(verdict);
        }
        let candidates = self.candidates(&set);
        if self.splits >= self.limits.allowance {
            return Err(SPENT);
        }
        if open >= self.limits.open {
            return Err(TOO_DEEP);
        }
        let chosen = candidates[0];
        self.splits += 1;
        let positive = 2 * chosen as u16;
        let side = self.set_true(&set, positive + 1)?;
        let mut verdict = self.decide(side, open + 1)?;
        let settled = match self.quantifiers[chosen] {
            Quantifier::Existential => verdict,
            Quantifier::Universal => !verdict,
        };
        if !settled {
            let side = self.set_true(&set, positive)?;
            verdict = self.decide(side, open + 1)?;
        }
        self.note(set, verdict);
        Ok(verdict)
    }
}

pub fn check_formula(formula: &Formula, limits: Limits) -> Answer {
    check_counting(formula, limits).0
}

/// The answer, and the nodes and pairs in the end.
pub fn check_counting(formula: &Formula, limits: Limits) -> (Answer, usize, usize) {
    let mut run = Run::new(formula.prefix.iter().map(|&(_, q)| q).collect(), limits);
    let answer = match run.load(&formula.clauses) {
        Err(number) => Answer::Refused { number, at: 0 },
        Ok(set) => match run.decide(set, 0) {
            Ok(value) => Answer::Verdict { value, splits: run.splits, v: formula.v, c: formula.c },
            Err(number) => Answer::Refused { number, at: run.splits },
        },
    };
    (answer, run.nodes(), run.pairs())
}

pub fn check(text: &[u8], limits: Limits) -> Answer {
    match read(text) {
        Err(refusal) => Answer::Refused { number: refusal.number, at: refusal.offset as u32 },
        Ok(formula) => check_formula(&formula, limits),
    }
}
