//! The fast engine: a zero-suppressed diagram with a hashed node table, cached set operations and arrays that are
//! reused from call to call. It answers what [`crate::walk`] answers.
//!
//! Number 0 is the empty set and number 1 the set of only the empty clause. Every operation below makes only nodes of
//! the set it answers, so the table is full here exactly when it is full by the definition.

use crate::{Answer, Limits, GREATEST_C, GREATEST_LENGTH, GREATEST_NODES, GREATEST_V, SPENT, TABLE_FULL, TOO_DEEP};

const EMPTY: u16 = 0;
const UNIT: u16 = 1;
const FIRST_NODE: u16 = 2;
const NUMBERS: usize = GREATEST_NODES + FIRST_NODE as usize;
const SLOTS: usize = 4 * GREATEST_NODES;
const CACHE: usize = 4 * GREATEST_NODES;
const WORDS: usize = 8;
const NO_CODE: u16 = u16::MAX;
const EVEN_BITS: u64 = 0x5555_5555_5555_5555;

const HAS_EMPTY_CLAUSE: u8 = 1;
const HAS_UNIVERSAL_SINGLE: u8 = 2;

const NO_PAIR: u8 = 2;

#[derive(Clone, Copy)]
struct Node {
    code: u16,
    with: u16,
    without: u16,
    /// The lowest existential code that stands alone in a clause.
    single: u16,
}

#[derive(Clone, Copy)]
struct Entry {
    key: u64,
    answer: u16,
}

#[derive(Clone, Copy)]
enum Operation {
    Union = 0,
    Without = 1,
    Take = 2,
    Set = 3,
}

pub struct Engine {
    nodes: Vec<Node>,
    flags: Vec<u8>,
    /// For each number the codes that occur in its set, one bit each.
    occurring: Vec<[u64; WORDS]>,
    /// Where in `slots` each node is.
    slot_of: Vec<u16>,
    slots: Vec<u16>,
    cache: Vec<Entry>,
    /// The verdict noted for each number, or `NO_PAIR`.
    memo: Vec<u8>,
    pairs: usize,
    count: usize,
    /// How many words of 64 codes the prefix needs.
    words: usize,
    generation: u64,
    universal: [u64; WORDS],
    splits: u32,
    limits: Limits,
    /// Codes of all clauses of the text, each clause ended by `NO_CODE`.
    literals: Vec<u16>,
    /// The place of a variable in the prefix, or `NO_CODE`.
    places: [u16; GREATEST_V as usize + 1],
}

impl Default for Engine {
    fn default() -> Engine {
        Engine::new()
    }
}

type Made = Result<u16, u8>;

fn bit(words: &[u64; WORDS], code: u16) -> bool {
    words[usize::from(code >> 6)] >> (code & 63) & 1 != 0
}

impl Engine {
    pub fn new() -> Engine {
        let terminal = Node { code: NO_CODE, with: 0, without: 0, single: NO_CODE };
        let mut engine = Engine {
            nodes: vec![terminal; NUMBERS],
            flags: vec![0; NUMBERS],
            occurring: vec![[0; WORDS]; NUMBERS],
            slot_of: vec![0; NUMBERS],
            slots: vec![0; SLOTS],
            cache: vec![Entry { key: 0, answer: 0 }; CACHE],
            memo: vec![NO_PAIR; NUMBERS],
            pairs: 0,
            count: 0,
            words: 0,
            generation: 0,
            universal: [0; WORDS],
            splits: 0,
            limits: Limits::default(),
            literals: Vec::with_capacity(GREATEST_LENGTH / 2 + 1),
            places: [NO_CODE; GREATEST_V as usize + 1],
        };
        engine.flags[usize::from(UNIT)] = HAS_EMPTY_CLAUSE;
        engine
    }

    pub fn nodes(&self) -> usize {
        self.count
    }

    pub fn pairs(&self) -> usize {
        self.pairs
    }

    fn clear(&mut self, limits: Limits) {
        for number in usize::from(FIRST_NODE)..usize::from(FIRST_NODE) + self.count {
            self.slots[usize::from(self.slot_of[number])] = 0;
            self.memo[number] = NO_PAIR;
        }
        self.count = 0;
        self.pairs = 0;
        self.splits = 0;
        self.universal = [0; WORDS];
        self.words = 0;
        self.limits = limits;
        self.generation += 1;
        if self.generation >> 34 != 0 {
            self.cache.fill(Entry { key: 0, answer: 0 });
            self.generation = 1;
        }
    }

    fn make(&mut self, code: u16, with: u16, without: u16) -> Made {
        if with == EMPTY {
            return Ok(without);
        }
        let key = u64::from(code) << 32 | u64::from(with) << 16 | u64::from(without);
        let mut slot = (key.wrapping_mul(0x9E37_79B9_7F4A_7C15) >> 50) as usize & (SLOTS - 1);
        loop {
            let number = self.slots[slot];
            if number == 0 {
                break;
            }
            let node = &self.nodes[usize::from(number)];
            if node.code == code && node.with == with && node.without == without {
                return Ok(number);
            }
            slot = (slot + 1) & (SLOTS - 1);
        }
        if self.count >= self.limits.nodes {
            return Err(TABLE_FULL);
        }
        let number = usize::from(FIRST_NODE) + self.count;
        self.count += 1;
        self.slots[slot] = number as u16;
        self.slot_of[number] = slot as u16;

        let (w, wo) = (usize::from(with), usize::from(without));
        let mut flags = self.flags[wo];
        let mut single = self.nodes[wo].single;
        if self.flags[w] & HAS_EMPTY_CLAUSE != 0 {
            if bit(&self.universal, code) {
                flags |= HAS_UNIVERSAL_SINGLE;
            } else {
                single = code;
            }
        }
        self.flags[number] = flags;
        self.nodes[number] = Node { code, with, without, single };
        for k in 0..self.words {
            self.occurring[number][k] = self.occurring[w][k] | self.occurring[wo][k];
        }
        self.occurring[number][usize::from(code >> 6)] |= 1 << (code & 63);
        Ok(number as u16)
    }

    fn key(&self, operation: Operation, a: u16, b: u16) -> (u64, usize) {
        let short = u64::from(a) << 15 | u64::from(b) << 2 | operation as u64;
        let key = self.generation << 28 | short;
        (key, (short.wrapping_mul(0x9E37_79B9_7F4A_7C15) >> 50) as usize & (CACHE - 1))
    }

    fn remember(&mut self, key: u64, place: usize, answer: u16) -> Made {
        self.cache[place] = Entry { key, answer };
        Ok(answer)
    }

    fn union(&mut self, a: u16, b: u16) -> Made {
        if a == b || b == EMPTY {
            return Ok(a);
        }
        if a == EMPTY {
            return Ok(b);
        }
        let (a, b) = if a < b { (a, b) } else { (b, a) };
        if a == UNIT && self.flags[usize::from(b)] & HAS_EMPTY_CLAUSE != 0 {
            return Ok(b);
        }
        let (key, place) = self.key(Operation::Union, a, b);
        if self.cache[place].key == key {
            return Ok(self.cache[place].answer);
        }
        let (m, n) = (self.nodes[usize::from(a)], self.nodes[usize::from(b)]);
        let answer = if m.code < n.code {
            let without = self.union(m.without, b)?;
            self.make(m.code, m.with, without)?
        } else if m.code > n.code {
            let without = self.union(a, n.without)?;
            self.make(n.code, n.with, without)?
        } else {
            let with = self.union(m.with, n.with)?;
            let without = self.union(m.without, n.without)?;
            self.make(m.code, with, without)?
        };
        self.remember(key, place, answer)
    }

    /// The union of a set with a single clause. There is nothing to cache: each set so far is met once.
    fn add(&mut self, set: u16, clause: u16) -> Made {
        if set == EMPTY || set == clause {
            return Ok(clause);
        }
        let (m, n) = (self.nodes[usize::from(set)], self.nodes[usize::from(clause)]);
        if m.code < n.code {
            let without = self.add(m.without, clause)?;
            if without == m.without {
                return Ok(set);
            }
            self.make(m.code, m.with, without)
        } else if m.code > n.code {
            self.make(n.code, n.with, set)
        } else {
            let with = self.add(m.with, n.with)?;
            if with == m.with {
                return Ok(set);
            }
            self.make(m.code, with, m.without)
        }
    }

    /// The clauses of a set that do not have the literal.
    fn without(&mut self, set: u16, literal: u16) -> Made {
        if !bit(&self.occurring[usize::from(set)], literal) {
            return Ok(set);
        }
        let node = self.nodes[usize::from(set)];
        if node.code == literal {
            return Ok(node.without);
        }
        let (key, place) = self.key(Operation::Without, set, literal);
        if self.cache[place].key == key {
            return Ok(self.cache[place].answer);
        }
        let with = self.without(node.with, literal)?;
        let without = self.without(node.without, literal)?;
        let answer = self.make(node.code, with, without)?;
        self.remember(key, place, answer)
    }

    /// The clauses of a set that have the literal, with it taken out.
    fn take(&mut self, set: u16, literal: u16) -> Made {
        if !bit(&self.occurring[usize::from(set)], literal) {
            return Ok(EMPTY);
        }
        let node = self.nodes[usize::from(set)];
        if node.code == literal {
            return Ok(node.with);
        }
        let (key, place) = self.key(Operation::Take, set, literal);
        if self.cache[place].key == key {
            return Ok(self.cache[place].answer);
        }
        let with = self.take(node.with, literal)?;
        let without = self.take(node.without, literal)?;
        let answer = self.make(node.code, with, without)?;
        self.remember(key, place, answer)
    }

    fn set_true(&mut self, set: u16, literal: u16) -> Made {
        let (key, place) = self.key(Operation::Set, set, literal);
        if self.cache[place].key == key {
            return Ok(self.cache[place].answer);
        }
        let kept = self.without(set, literal)?;
        let shortened = self.take(kept, literal ^ 1)?;
        let untouched = self.without(kept, literal ^ 1)?;
        let answer = self.union(shortened, untouched)?;
        self.remember(key, place, answer)
    }

    /// The lone literal of lowest code.
    fn lone(&self, set: u16) -> Option<u16> {
        let occurring = &self.occurring[usize::from(set)];
        for (k, &word) in occurring[..self.words].iter().enumerate() {
            let lone = (word ^ (word >> 1)) & EVEN_BITS;
            if lone != 0 {
                let low = lone.trailing_zeros() as u16;
                let negative = word >> low & 1 == 0;
                return Some(k as u16 * 64 + low + u16::from(negative));
            }
        }
        None
    }

    fn decide(&mut self, mut set: u16, open: usize) -> Result<bool, u8> {
        loop {
            let flags = self.flags[usize::from(set)];
            if flags & (HAS_EMPTY_CLAUSE | HAS_UNIVERSAL_SINGLE) != 0 {
                return Ok(false);
            }
            if set == EMPTY {
                return Ok(true);
            }
            let single = self.nodes[usize::from(set)].single;
            if single != NO_CODE {
                set = self.set_true(set, single)?;
                continue;
            }
            match self.lone(set) {
                None => break,
                Some(l) => set = self.set_true(set, l ^ u16::from(bit(&self.universal, l)))?,
            }
        }
        let noted = self.memo[usize::from(set)];
        if noted != NO_PAIR {
            return Ok(noted != 0);
        }
        if self.splits >= self.limits.allowance {
            return Err(SPENT);
        }
        if open >= self.limits.open {
            return Err(TOO_DEEP);
        }
        self.splits += 1;
        // The lowest code of the set belongs to the first candidate.
        let positive = self.nodes[usize::from(set)].code & !1;
        let universal = bit(&self.universal, positive);
        let side = self.set_true(set, positive + 1)?;
        let mut verdict = self.decide(side, open + 1)?;
        if verdict == universal {
            let side = self.set_true(set, positive)?;
            verdict = self.decide(side, open + 1)?;
        }
        // The pair of a set noted within its own walk would be replaced, but a walk only meets smaller sets.
        if self.pairs < self.limits.pairs {
            self.memo[usize::from(set)] = u8::from(verdict);
            self.pairs += 1;
        }
        Ok(verdict)
    }

    /// Makes each clause alone and the set of those so far. A repeated clause makes nothing new.
    fn load(&mut self) -> Made {
        let mut so_far = EMPTY;
        let mut next = 0;
        while next < self.literals.len() {
            let mut marks = [0u64; WORDS];
            loop {
                let code = self.literals[next];
                next += 1;
                if code == NO_CODE {
                    break;
                }
                marks[usize::from(code >> 6)] |= 1 << (code & 63);
            }
            if marks.iter().any(|word| word & (word >> 1) & EVEN_BITS != 0) {
                continue;
            }
            let mut clause = UNIT;
            for k in (0..self.words).rev() {
                let mut word = marks[k];
                while word != 0 {
                    let high = 63 - word.leading_zeros() as u16;
                    word ^= 1 << high;
                    clause = self.make(k as u16 * 64 + high, clause, EMPTY)?;
                }
            }
            so_far = self.add(so_far, clause)?;
        }
        Ok(so_far)
    }

    pub fn check(&mut self, text: &[u8], limits: Limits) -> Answer {
        self.clear(limits);
        let (v, c) = match self.read(text) {
            Ok(counts) => counts,
            Err((number, at)) => return Answer::Refused { number, at: at as u32 },
        };
        let set = match self.load() {
            Ok(set) => set,
            Err(number) => return Answer::Refused { number, at: 0 },
        };
        match self.decide(set, 0) {
            Ok(value) => Answer::Verdict { value, splits: self.splits, v, c },
            Err(number) => Answer::Refused { number, at: self.splits },
        }
    }

    /// Reads the whole text into `literals`, `places` and `universal`, and answers V and C.
    fn read(&mut self, text: &[u8]) -> Result<(u32, u32), (u8, usize)> {
        if text.len() > GREATEST_LENGTH {
            return Err((1, GREATEST_LENGTH));
        }
        self.literals.clear();
        self.places = [NO_CODE; GREATEST_V as usize + 1];
        let end = text.len();
        let mut scan = Scanner { text, at: 0, crossed: true };
        scan.skip_comments();

        // The problem line.
        let word = scan.word().ok_or((2, end))?;
        if word.bytes(text) != b"p" {
            return Err((2, word.start));
        }
        let word = scan.word().ok_or((2, end))?;
        if word.first_on_line || word.bytes(text) != b"cnf" {
            return Err((2, word.start));
        }
        let mut counts = [0; 2];
        for (count, greatest) in counts.iter_mut().zip([GREATEST_V, GREATEST_C]) {
            let word = scan.word().ok_or((2, end))?;
            let value = if word.first_on_line { None } else { number(word.bytes(text)) };
            *count = value.ok_or((2, word.start))?;
            if *count > greatest {
                return Err((3, word.start));
            }
        }
        let [v, c] = counts;

        // Prefix lines, up to the first word of the clauses.
        let mut bound = 0u16;
        let mut word = scan.word();
        while let Some(head) = word {
            if !head.first_on_line {
                return Err((2, head.start));
            }
            let universal = match head.bytes(text) {
                b"a" => true,
                b"e" => false,
                _ => break,
            };
            let mut first = true;
            loop {
                let word = scan.word().ok_or((2, end))?;
                let value = if word.first_on_line { None } else { number(word.bytes(text)) };
                let variable = value.ok_or((2, word.start))?;
                if variable == 0 {
                    if first {
                        return Err((2, word.start));
                    }
                    break;
                }
                if variable > v {
                    return Err((3, word.start));
                }
                if self.places[variable as usize] != NO_CODE {
                    return Err((4, word.start));
                }
                self.places[variable as usize] = bound;
                if universal {
                    self.universal[usize::from(bound >> 5)] |= 3 << ((2 * bound) & 63);
                }
                bound += 1;
                first = false;
            }
            word = scan.word();
        }
        self.words = (2 * usize::from(bound)).div_ceil(64);

        // The clauses.
        let mut count = 0;
        let mut within = false;
        while let Some(this) = word {
            let bytes = this.bytes(text);
            let minus = bytes[0] == b'-';
            let variable = number(&bytes[usize::from(minus)..]).ok_or((2, this.start))?;
            if minus && variable == 0 {
                return Err((2, this.start));
            }
            if variable > v {
                return Err((3, this.start));
            }
            let place = self.places[variable as usize];
            if variable != 0 && place == NO_CODE {
                return Err((5, this.start));
            }
            if !within && count == c {
                return Err((6, this.start));
            }
            if variable == 0 {
                self.literals.push(NO_CODE);
                count += 1;
                within = false;
            } else {
                self.literals.push(2 * place + u16::from(minus));
                within = true;
            }
            word = scan.word();
        }
        if within || text.last() != Some(&b'\n') {
            return Err((2, end));
        }
        if count < c {
            return Err((6, end));
        }
        Ok((v, c))
    }
}

struct Scanner<'a> {
    text: &'a [u8],
    at: usize,
    /// Whether a line has begun since the last word.
    crossed: bool,
}

#[derive(Clone, Copy)]
struct Span {
    start: usize,
    end: usize,
    first_on_line: bool,
}

impl Span {
    fn bytes(self, text: &[u8]) -> &[u8] {
        &text[self.start..self.end]
    }
}

impl Scanner<'_> {
    /// Passes comments and blank lines ahead of the first word.
    fn skip_comments(&mut self) {
        loop {
            let line = &self.text[self.at..];
            let length = line.iter().position(|&b| b == b'\n');
            let comment = line.first() == Some(&b'c');
            if !comment && line[..length.unwrap_or(line.len())].iter().any(|&b| b != b' ') {
                return;
            }
            match length {
                None => {
                    self.at = self.text.len();
                    return;
                }
                Some(length) => self.at += length + 1,
            }
        }
    }

    fn word(&mut self) -> Option<Span> {
        let text = self.text;
        let mut at = self.at;
        let mut first_on_line = self.crossed;
        while at < text.len() {
            match text[at] {
                b'\n' => first_on_line = true,
                b' ' => {}
                _ => break,
            }
            at += 1;
        }
        if at == text.len() {
            self.at = at;
            return None;
        }
        let start = at;
        while at < text.len() && text[at] != b' ' && text[at] != b'\n' {
            at += 1;
        }
        self.at = at;
        self.crossed = false;
        Some(Span { start, end: at, first_on_line })
    }
}

/// The value of a number; any of more than four digits counts as 10,000, which is out of every range.
fn number(bytes: &[u8]) -> Option<u32> {
    let (&first, rest) = bytes.split_first()?;
    let mut value = u32::from(first.wrapping_sub(b'0'));
    if value > 9 || (value == 0 && !rest.is_empty()) {
        return None;
    }
    for &b in rest {
        let digit = u32::from(b.wrapping_sub(b'0'));
        if digit > 9 {
            return None;
        }
        value = (value * 10 + digit).min(10_000);
    }
    Some(value)
}
