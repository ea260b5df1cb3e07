//! The engines on worked formulas, and against each other on random ones.

use independent::reader::{read, Formula, Quantifier};
use independent::zdd::Engine;
use independent::{expansion, walk, Answer, Limits};

struct Random(u64);

impl Random {
    fn below(&mut self, n: usize) -> usize {
        self.0 ^= self.0 << 13;
        self.0 ^= self.0 >> 7;
        self.0 ^= self.0 << 17;
        (self.0 >> 11) as usize % n
    }
}

const BLANK: usize = 0;
const KEEPING: usize = 1_024;

fn both(text: &str, limits: Limits) -> Answer {
    let slow = walk::check(text.as_bytes(), limits);
    let fast = Engine::new().check(text.as_bytes(), limits);
    assert_eq!(slow, fast, "{text}");
    slow
}

fn verdict(text: &str, pairs: usize) -> (bool, u32) {
    match both(text, Limits { pairs, ..Limits::default() }) {
        Answer::Verdict { value, splits, .. } => (value, splits),
        other => panic!("{other:?}"),
    }
}

const LAST: &str = "p cnf 3 3\na 1 2 0\ne 3 0\n1 2 3 0\n-1 2 3 0\n-2 -3 0\n";

#[test]
fn worked_formulas() {
    for pairs in [BLANK, KEEPING] {
        assert_eq!(verdict("p cnf 0 0\n", pairs), (true, 0));
        assert_eq!(verdict("p cnf 0 1\n0\n", pairs), (false, 0));
        assert_eq!(verdict("p cnf 2 2\na 1 0\ne 2 0\n1 2 0\n-1 -2 0\n", pairs), (true, 1));
        assert_eq!(verdict("p cnf 2 2\ne 2 0\na 1 0\n1 2 0\n-1 -2 0\n", pairs), (false, 1));
        assert_eq!(verdict("p cnf 1 1\na 1 0\n1 0\n", pairs), (false, 0));
        assert_eq!(verdict("p cnf 2 2\na 1 0\ne 2 0\n1 2 0\n1 -2 0\n", pairs), (false, 0));
        assert_eq!(verdict("p cnf 1 1\ne 1 0\n1 -1 0\n", pairs), (true, 0));
    }
    assert_eq!(verdict(LAST, BLANK), (true, 3));
    assert_eq!(verdict(LAST, KEEPING), (true, 2));
    let spent = Limits { pairs: BLANK, allowance: 2, ..Limits::default() };
    assert_eq!(both(LAST, spent), Answer::Refused { number: 11, at: 2 });
    let enough = Limits { pairs: KEEPING, allowance: 2, ..Limits::default() };
    assert_eq!(both(LAST, enough), Answer::Verdict { value: true, splits: 2, v: 3, c: 3 });
}

/// The two clauses of the first room with a split make four nodes as one set, and the load makes one more: the one of
/// each clause alone that is not in the set.
#[test]
fn nodes_of_a_load() {
    let formula = read(b"p cnf 2 2\na 1 0\ne 2 0\n1 2 0\n-1 -2 0\n").unwrap();
    let mut run = walk::Run::new(formula.prefix.iter().map(|&(_, q)| q).collect(), Limits::default());
    run.load(&formula.clauses).unwrap();
    // (2), (-2), (1 2) alone, (-1 -2) alone, both
    assert_eq!(run.nodes(), 5);
    let mut alone = walk::Run::new(formula.prefix.iter().map(|&(_, q)| q).collect(), Limits::default());
    alone.load(&formula.clauses[1..]).unwrap();
    assert_eq!(alone.nodes(), 2);
}

#[test]
fn open_splits() {
    // Every variable of the prefix needs a split on the way to the first leaf.
    let text = "p cnf 6 6\na 1 2 3 0\ne 4 5 6 0\n1 4 0\n-1 -4 0\n2 5 0\n-2 -5 0\n3 6 0\n-3 -6 0\n";
    assert_eq!(both(text, Limits { open: 2, ..Limits::default() }), Answer::Refused { number: 12, at: 2 });
    assert_eq!(
        both(text, Limits { open: 2, allowance: 2, ..Limits::default() }),
        Answer::Refused { number: 11, at: 2 }
    );
    assert!(matches!(both(text, Limits { open: 3, ..Limits::default() }), Answer::Verdict { value: true, .. }));
}

/// Random formulas of two kinds: any clauses at all, and clauses of about one width with two existential literals or
/// more each, which are the ones that need splits.
fn random_formula(random: &mut Random, most_variables: usize, most_clauses: usize, widest: usize) -> Formula {
    let hard = random.below(4) != 0;
    let bound = if hard {
        (most_variables / 2 + random.below(most_variables / 2 + 1)).max(1)
    } else {
        random.below(most_variables + 1)
    };
    let change = 1 + random.below(4);
    let few_universals = 2 + random.below(4);
    let mut quantifier = Quantifier::Existential;
    let mut prefix = Vec::new();
    for place in 0..bound {
        if random.below(change) == 0 {
            let universal = random.below(few_universals) == 0;
            quantifier = if universal { Quantifier::Universal } else { Quantifier::Existential };
        }
        prefix.push((place as u32 + 1, quantifier));
    }
    let existential: Vec<usize> = (0..bound).filter(|&p| prefix[p].1 == Quantifier::Existential).collect();
    let mut clauses: Vec<Vec<u16>> = Vec::new();
    let ratio = 1 + random.below(5);
    let count = if hard { most_clauses.min(bound * ratio) } else { random.below(most_clauses + 1) };
    let usual = 2 + random.below(widest.max(2) - 1);
    for _ in 0..count {
        let width = if hard {
            usual
        } else if random.below(60) == 0 {
            0
        } else {
            1 + random.below(widest)
        };
        let mut clause: Vec<u16> = Vec::new();
        for k in 0..width {
            if bound == 0 {
                break;
            }
            let place = if hard && k < 2 && !existential.is_empty() {
                existential[random.below(existential.len())]
            } else {
                random.below(bound)
            };
            let code = (2 * place + random.below(2)) as u16;
            if !clause.contains(&code) && !clause.contains(&(code ^ 1)) {
                clause.push(code);
            }
        }
        if (clause.is_empty() && random.below(10) != 0) || (hard && clause.len() < 2) {
            continue;
        }
        let mut sorted = clause.clone();
        sorted.sort_unstable();
        let known = clauses.iter().any(|old| {
            let mut old = old.clone();
            old.sort_unstable();
            old == sorted
        });
        if !known {
            clauses.push(clause);
        }
    }
    Formula { v: bound as u32, c: clauses.len() as u32, prefix, clauses }
}

fn written(formula: &Formula) -> String {
    let mut text = format!("p cnf {} {}\n", formula.v, formula.c);
    for (variable, quantifier) in &formula.prefix {
        let letter = if *quantifier == Quantifier::Universal { 'a' } else { 'e' };
        text += &format!("{letter} {variable} 0\n");
    }
    for clause in &formula.clauses {
        for code in clause {
            let variable = formula.prefix[usize::from(code / 2)].0;
            text += &format!("{}{variable} ", if code % 2 == 1 { "-" } else { "" });
        }
        text += "0\n";
    }
    text
}

#[test]
fn written_formulas_read_back() {
    let mut random = Random(77);
    for _ in 0..2_000 {
        let formula = random_formula(&mut random, 9, 12, 4);
        assert_eq!(read(written(&formula).as_bytes()).as_ref(), Ok(&formula));
    }
}

#[test]
fn verdicts_against_expansion() {
    let mut random = Random(1);
    let (mut yes, mut no, mut split) = (0, 0, 0);
    for round in 0..60_000 {
        let (variables, clauses, widest) = match round % 6 {
            0 | 1 => (5, 9, 3),
            2 | 3 => (8, 20, 3),
            4 => (10, 26, 4),
            _ => (11, 40, 4),
        };
        let formula = random_formula(&mut random, variables, clauses, widest);
        let value = expansion::value(&formula);
        for pairs in [BLANK, KEEPING, 2] {
            match walk::check_formula(&formula, Limits { pairs, ..Limits::default() }) {
                Answer::Verdict { value: walked, splits, .. } => {
                    assert_eq!(walked, value, "{}", written(&formula));
                    split += u32::from(splits > 1);
                }
                other => panic!("{other:?} for {}", written(&formula)),
            }
        }
        if value {
            yes += 1;
        } else {
            no += 1;
        }
    }
    println!("{yes} true, {no} false, {split} walks with several splits");
    assert!(yes > 10_000 && no > 10_000 && split > 5_000);
}

#[test]
fn diagram_against_sets() {
    let mut random = Random(2);
    let mut engine = Engine::new();
    let mut told = [0usize; 14];
    for round in 0..60_000 {
        let (variables, clauses, widest) = match round % 8 {
            0 | 1 => (6, 12, 3),
            2 | 3 => (10, 26, 4),
            4 | 5 => (14, 45, 4),
            6 => (40, 30, 6),
            _ => (18, 60, 4),
        };
        let formula = random_formula(&mut random, variables, clauses, widest);
        let mut limits = Limits::default();
        match random.below(6) {
            0 => limits.nodes = random.below(200),
            1 => limits.allowance = random.below(12) as u32,
            2 => limits.pairs = random.below(6),
            3 => limits.open = random.below(5),
            4 => {
                limits.nodes = 20 + random.below(400);
                limits.allowance = random.below(20) as u32;
                limits.pairs = random.below(20);
                limits.open = 1 + random.below(6);
            }
            _ => {}
        }
        let (slow, nodes, pairs) = walk::check_counting(&formula, limits);
        let text = written(&formula);
        let fast = engine.check(text.as_bytes(), limits);
        assert_eq!(slow, fast, "{limits:?}\n{text}");
        // After a full table it is open which nodes of the unfinished set were gained.
        assert_eq!(engine.nodes(), nodes, "{limits:?}\n{text}");
        assert_eq!(engine.pairs(), pairs, "{limits:?}\n{text}");
        told[match slow {
            Answer::Verdict { value, .. } => usize::from(value),
            Answer::Refused { number: 10, at: 0 } => 13,
            Answer::Refused { number, .. } => usize::from(number),
        }] += 1;
    }
    println!("false, true, .., 10 11 12, and 10 with no split: {told:?}");
    for number in [0, 1, 10, 11, 12, 13] {
        assert!(told[number] > 300, "{told:?}");
    }
}

/// Formulas that fill the table of the ordinary size.
#[test]
fn diagram_against_sets_when_large() {
    let mut random = Random(3);
    let mut engine = Engine::new();
    let mut told = [0usize; 14];
    for round in 0..200 {
        let (variables, clauses, widest) = match round % 4 {
            0 => (30, 120, 3),
            1 => (60, 400, 3),
            2 => (256, 200, 20),
            _ => (24, 100, 5),
        };
        let formula = random_formula(&mut random, variables, clauses, widest);
        let slow = walk::check_formula(&formula, Limits::default());
        let text = written(&formula);
        assert_eq!(slow, engine.check(text.as_bytes(), Limits::default()), "{text}");
        told[match slow {
            Answer::Verdict { value, .. } => usize::from(value),
            Answer::Refused { number: 10, at: 0 } => 13,
            Answer::Refused { number, .. } => usize::from(number),
        }] += 1;
    }
    println!("{told:?}");
}
