//! Reads a text from standard input and prints what the checker's program prints.
//! `independent walk` uses the set-of-sets engine, `independent` the diagram.

use independent::{walk, zdd, Answer, Limits};
use std::io::Read;

fn main() {
    let mut text = Vec::new();
    std::io::stdin().lock().read_to_end(&mut text).expect("standard input");
    let answer = match std::env::args().nth(1).as_deref() {
        Some("walk") => walk::check(&text, Limits::default()),
        _ => zdd::Engine::new().check(&text, Limits::default()),
    };
    match answer {
        Answer::Verdict { value, splits, v, c } => {
            println!("s cnf {} {v} {c}\nc splits {splits}", u8::from(value));
        }
        Answer::Refused { number, at } => println!("c refused {number} at {at}"),
    }
}
