//! The reader on hand-written texts, and the two readers against each other.

use independent::reader::{read, Quantifier, Refusal};
use independent::zdd::Engine;
use independent::{Answer, Limits};

fn shape(text: &str) -> Result<String, (u8, usize)> {
    match read(text.as_bytes()) {
        Err(Refusal { number, offset }) => Err((number, offset)),
        Ok(formula) => {
            let mut told = format!("V {} C {}", formula.v, formula.c);
            for (variable, quantifier) in &formula.prefix {
                let letter = if *quantifier == Quantifier::Universal { 'a' } else { 'e' };
                told += &format!(" {letter}{variable}");
            }
            for clause in &formula.clauses {
                let codes: Vec<String> = clause.iter().map(u16::to_string).collect();
                told += &format!(" ({})", codes.join(" "));
            }
            Ok(told)
        }
    }
}

const ACCEPTED: &[(&str, &str)] = &[
    ("p cnf 0 0\n", "V 0 C 0"),
    ("p cnf 0 2\n0 0\n", "V 0 C 2 ()"),
    ("p cnf 3 3\na 1 2 0\ne 3 0\n1 2 3 0\n-1 2 3 0\n-2 -3 0\n", "V 3 C 3 a1 a2 e3 (0 2 4) (1 2 4) (3 5)"),
    ("p cnf 2 2\ne 2 0\na 1 0\n1 2 0\n-1 -2 0\n", "V 2 C 2 e2 a1 (2 0) (3 1)"),
    ("cnf\n\n  p  cnf 1 1 \n e 1 0\n1\n\n0\n", "V 1 C 1 e1 (0)"),
    ("p cnf 2 3\na 1 2 0\n1 0 2\n0 -1 -2 0\n", "V 2 C 3 a1 a2 (0) (2) (1 3)"),
    ("p cnf 2 3\ne 1 2 0\n2 1 2 0\n1 2 0\n1 -1 0\n", "V 2 C 3 e1 e2 (2 0)"),
    ("p cnf 256 1\na 256 0\n-256 0\n", "V 256 C 1 a256 (1)"),
    // more of the same rules
    ("c\np cnf 0 0\n", "V 0 C 0"),
    ("c a\tb\r\u{0}\nc\n\n \np cnf 0 0\n   \n\n", "V 0 C 0"),
    ("p cnf 2 2\ne 1 0\ne 2 0\n1 0 2 0\n", "V 2 C 2 e1 e2 (0) (2)"),
    ("p cnf 2 0\na 1 0\n", "V 2 C 0 a1"),
    ("p cnf 3 1\na 3 0\n   \n e 1 0   \n-3\n 3\n0\n", "V 3 C 1 a3 e1"),
];

const REFUSED: &[(&str, (u8, usize))] = &[
    ("", (2, 0)),
    ("c note\n", (2, 7)),
    (" c note\np cnf 0 0\n", (2, 1)),
    ("p cnf 0 0\nc note\n", (2, 10)),
    ("p cnf 0 0", (2, 9)),
    ("p cnf 0 0\r\n", (2, 8)),
    ("p\tcnf 0 0\n", (2, 0)),
    ("p cnf 1\n1\n", (2, 8)),
    ("p cnf 0 1 0\n", (2, 10)),
    ("p cnf 01 0\n", (2, 6)),
    ("p cnf 257 0\n", (3, 6)),
    ("p cnf 0 2049\n", (3, 8)),
    ("p cnf 3 0\ne 0\n", (2, 12)),
    ("p cnf 3 0\ne 1\n2 0\n", (2, 14)),
    ("p cnf 3 0\ne -1 0\n", (2, 12)),
    ("p cnf 3 0\ne 4 0\n", (3, 12)),
    ("p cnf 3 0\na 1 2 0\ne 3 2 0\n", (4, 22)),
    ("p cnf 3 1\ne 1 2 0\n1 -0\n", (2, 20)),
    ("p cnf 3 1\ne 1 2 0\n1 -4 0\n", (3, 20)),
    ("p cnf 3 1\ne 1 2 0\n-10000 0\n", (3, 18)),
    ("p cnf 3 1\ne 1 2 0\n1 3 0\n", (5, 20)),
    ("p cnf 3 2\ne 1 2 0\n1 0\na 3 0\n3 0\n", (2, 22)),
    ("p cnf 3 1\ne 1 2 0\n1\n", (2, 20)),
    ("p cnf 3 2\ne 1 2 0\n1 0\n", (6, 22)),
    ("p cnf 3 2\ne 1 2 0\n1 0", (2, 21)),
    ("p cnf 3 1\ne 1 2 0\n1 0\n1 0\n", (6, 22)),
    ("p cnf 3 1\ne 1 2 0\n1 0\n-3 0\n", (5, 22)),
    ("p cnf 3 1\ne 1 2 0\n3 4 0\n", (5, 18)),
    // 0 where a prefix line's first variable stands, with V 0
    ("p cnf 0 0\na 0\n", (2, 12)),
    // out of range and not bound
    ("p cnf 0 1\n1 0\n", (3, 10)),
    // where a clause too many would begin
    ("p cnf 2 0\ne 1 0\nx\n", (2, 16)),
    ("p cnf 2 0\ne 1 0\n3\n", (3, 16)),
    ("p cnf 2 0\ne 1 0\n2\n", (5, 16)),
    ("p cnf 2 0\ne 1 0\n1 x\n", (6, 16)),
    ("p cnf 2 0\ne 1 0\n0\n", (6, 16)),
    // a and e after the last clause
    ("p cnf 2 1\ne 1 0\n1 0\na 2 0\n", (2, 20)),
    // spelled wrong, and never out of range
    ("p cnf 00256 0\n", (2, 6)),
    ("p cnf 10000x 0\n", (2, 6)),
    ("p cnf 10000 0\n", (3, 6)),
    ("p cnf -1 0\n", (2, 6)),
    ("p cnf +1 0\n", (2, 6)),
    ("p cnf 1 1\ne 1 0\n--1 0\n", (2, 16)),
    ("p cnf 1 1\ne 1 0\n- 0\n", (2, 16)),
    ("p cnf 1 1\ne 1 0\n-01 0\n", (2, 16)),
    ("p cnf 1 1\ne 1 0\n1- 0\n", (2, 16)),
    ("p cnf 1 1\ne 1 0\n1.0 0\n", (2, 16)),
    ("p cnf 1 1\ne 1 0\n00 0\n", (2, 16)),
    // lines
    ("p\n\n \ncnf 0 0\n", (2, 5)),
    ("p cnf 1\nc\n 0\n", (2, 8)),
    ("p cnf 1 1\ne 1 0 1 0\n", (2, 16)),
    ("p cnf 1 1\ne 1 0\n1 0\n ", (2, 21)),
    ("p cnf 1 1\ne", (2, 11)),
    ("p cnf 1 1\ne\n", (2, 12)),
    ("p cnf 1 1\ne 1\n", (2, 14)),
    ("p", (2, 1)),
    ("p cnf\n", (2, 6)),
    ("p cnf 0 0\np cnf 0 0\n", (2, 10)),
    ("c note", (2, 6)),
    ("P cnf 0 0\n", (2, 0)),
    ("p cnf 0 0\n\u{b}\n", (2, 10)),
];

#[test]
fn accepted_texts() {
    for (text, told) in ACCEPTED {
        assert_eq!(shape(text).as_deref(), Ok(*told), "{text:?}");
    }
}

#[test]
fn refused_texts() {
    for (text, refusal) in REFUSED {
        assert_eq!(shape(text), Err(*refusal), "{text:?}");
    }
}

#[test]
fn long_texts() {
    assert_eq!(shape(&" ".repeat(60_001)), Err((1, 60_000)));
    assert_eq!(shape(&" ".repeat(60_000)), Err((2, 60_000)));
    let padded = |length: usize| format!("p cnf 0 0\n{}\n", " ".repeat(length - 11));
    assert_eq!(shape(&padded(60_000)), Ok("V 0 C 0".to_string()));
    assert_eq!(shape(&padded(60_001)), Err((1, 60_000)));
    let short = format!("p cnf 0 1\n{}\n", " ".repeat(60_000 - 11));
    assert_eq!(shape(&short), Err((6, 60_000)));
}

/// What the diagram engine's own reader says, as far as its answer shows it.
fn same_refusal(engine: &mut Engine, text: &[u8]) {
    let answer = engine.check(text, Limits { allowance: 0, ..Limits::default() });
    match read(text) {
        Err(Refusal { number, offset }) => {
            assert_eq!(answer, Answer::Refused { number, at: offset as u32 }, "{:?}", String::from_utf8_lossy(text));
        }
        Ok(formula) => match answer {
            Answer::Verdict { v, c, .. } => assert_eq!((v, c), (formula.v, formula.c)),
            Answer::Refused { number, .. } => {
                assert!(number >= 10, "{number} for {:?}", String::from_utf8_lossy(text))
            }
        },
    }
}

#[test]
fn both_readers_on_damaged_texts() {
    let mut engine = Engine::new();
    let mut state = 0x1234_5678_9ABC_DEF1u64;
    let mut random = move |below: usize| {
        state ^= state << 13;
        state ^= state >> 7;
        state ^= state << 17;
        (state >> 11) as usize % below
    };
    let pieces: [&[u8]; 16] =
        [b" ", b"\n", b"0", b"1", b"-", b"a", b"e", b"c", b"p", b"\t", b"\r", b"\0", b"\xff", b" 0\n", b"256", b" -3 "];
    let texts: Vec<&[u8]> =
        ACCEPTED.iter().map(|(t, _)| t.as_bytes()).chain(REFUSED.iter().map(|(t, _)| t.as_bytes())).collect();
    for text in &texts {
        same_refusal(&mut engine, text);
        for length in 0..text.len() {
            same_refusal(&mut engine, &text[..length]);
        }
    }
    for _ in 0..200_000 {
        let mut text = texts[random(texts.len())].to_vec();
        for _ in 0..1 + random(3) {
            let at = random(text.len() + 1);
            let until = (at + random(3)).min(text.len());
            let piece = if random(4) == 0 { &b""[..] } else { pieces[random(pieces.len())] };
            text.splice(at..until, piece.iter().copied());
        }
        same_refusal(&mut engine, &text);
    }
}
