//! The engines for C. Answers are numbered as the checker's entry numbers them: 0 false, 1 true, 10 more than a refusal.

use crate::reader::read;
use crate::zdd::Engine;
use crate::{expansion, walk, Answer, Limits};
use std::cell::RefCell;

/// What `independent_walk` and `independent_zdd` tell besides the number. `value` is the splits of a verdict, or what a
/// refusal tells. V and C are 0 after a refusal.
#[repr(C)]
#[derive(Default)]
pub struct Details {
    pub value: u32,
    pub v: u32,
    pub c: u32,
    /// Nodes in the table and pairs in the memo at the end; 0 if the text was not read.
    pub nodes: u32,
    pub pairs: u32,
}

thread_local! {
    static ENGINE: RefCell<Engine> = RefCell::new(Engine::new());
}

/// # Safety
/// `text` points to `length` bytes.
unsafe fn bytes<'a>(text: *const u8, length: usize) -> &'a [u8] {
    if length == 0 {
        &[]
    } else {
        std::slice::from_raw_parts(text, length)
    }
}

fn told(answer: Answer, nodes: usize, pairs: usize, details: &mut Details) -> u8 {
    *details = Details { nodes: nodes as u32, pairs: pairs as u32, ..Details::default() };
    match answer {
        Answer::Verdict { value, splits, v, c } => {
            details.value = splits;
            details.v = v;
            details.c = c;
            u8::from(value)
        }
        Answer::Refused { number, at } => {
            details.value = at;
            10 + number
        }
    }
}

/// The set-of-sets engine.
/// # Safety
/// `text` points to `length` bytes, `details` to a place for the details.
#[no_mangle]
pub unsafe extern "C" fn independent_walk(text: *const u8, length: usize, details: *mut Details) -> u8 {
    let (answer, nodes, pairs) = match read(bytes(text, length)) {
        Err(refusal) => (Answer::Refused { number: refusal.number, at: refusal.offset as u32 }, 0, 0),
        Ok(formula) => walk::check_counting(&formula, Limits::default()),
    };
    told(answer, nodes, pairs, &mut *details)
}

/// The diagram engine.
/// # Safety
/// `text` points to `length` bytes, `details` to a place for the details.
#[no_mangle]
pub unsafe extern "C" fn independent_zdd(text: *const u8, length: usize, details: *mut Details) -> u8 {
    ENGINE.with(|engine| {
        let mut engine = engine.borrow_mut();
        let answer = engine.check(bytes(text, length), Limits::default());
        told(answer, engine.nodes(), engine.pairs(), &mut *details)
    })
}

/// The value by full expansion: 0 or 1, or 2 if the text is refused or its prefix has more than `greatest` variables.
/// # Safety
/// `text` points to `length` bytes.
#[no_mangle]
pub unsafe extern "C" fn independent_expansion(text: *const u8, length: usize, greatest: usize) -> u8 {
    match read(bytes(text, length)) {
        Ok(formula) if formula.prefix.len() <= greatest => u8::from(expansion::value(&formula)),
        _ => 2,
    }
}
