//! A plain Rust program of the same design as `tfmset set`, to be compared with it: it reads the whole font and the
//! whole file, holds one result for each line, and writes the records when all lines are set. It checks almost
//! nothing of the font, isn't proved, and has no options.
//!
//! rustc -O --edition 2021 benches/plain.rs -o plain && ./plain FONT FILE > RECORDS

use std::env;
use std::fs;
use std::io::{self, Write};

const LIMIT: u32 = 1_048_576;

#[derive(Clone, Copy)]
struct Step {
    skip: u8,
    next: u8,
    op: u8,
    remainder: u8,
}

/// What stands between two neighbours.
#[derive(Clone, Copy)]
enum Action {
    Kern(i32),
    Ligature { code: u8, keep_left: bool, keep_right: bool, pass: u8 },
}

#[derive(Clone, Copy)]
enum Item {
    Char { code: u8, width: i32 },
    Kern(i32),
    Space(i32),
}

enum Answer {
    Set { items: Vec<Item>, width: i64 },
    Missing { offset: usize, code: u8 },
    TooLong(usize),
    Steps(u32),
}

struct Font {
    widths: [Option<i32>; 256],
    /// For each left side, the left boundary last: the codes to its right, sorted, each with its action.
    pairs: Vec<(u8, Action)>,
    ends: [u32; 258],
    right: Option<u8>,
    space: i32,
}

fn halves(bytes: &[u8], i: usize) -> usize {
    usize::from(bytes[2 * i]) << 8 | usize::from(bytes[2 * i + 1])
}

fn scaled(word: &[u8], size: i64) -> i32 {
    let number = i64::from(i32::from_be_bytes([word[0], word[1], word[2], word[3]]));
    ((number * size) >> 20) as i32
}

fn action(step: Step, kerns: &[i32]) -> Action {
    if step.op >= 128 {
        return Action::Kern(kerns[256 * usize::from(step.op - 128) + usize::from(step.remainder)]);
    }
    let (keep_left, keep_right, pass) = match step.op {
        1 => (false, true, 0),
        2 => (true, false, 0),
        3 => (true, true, 0),
        5 => (false, true, 1),
        6 => (true, false, 1),
        7 => (true, true, 1),
        11 => (true, true, 2),
        _ => (false, false, 0),
    };
    Action::Ligature { code: step.remainder, keep_left, keep_right, pass }
}

impl Font {
    fn read(bytes: &[u8]) -> Font {
        let count = |i| halves(bytes, i);
        let (lh, bc, ec, nw, nh, nd, ni) = (count(1), count(2), count(3), count(4), count(5), count(6), count(7));
        let (nl, nk) = (count(8), count(9));
        let size = i64::from(u32::from_be_bytes([bytes[28], bytes[29], bytes[30], bytes[31]]) >> 4);
        let infos = 24 + 4 * lh;
        let widths_at = infos + 4 * (ec + 1 - bc);
        let steps_at = widths_at + 4 * (nw + nh + nd + ni);
        let kerns_at = steps_at + 4 * nl;
        let parameters_at = kerns_at + 4 * (nk + count(10));
        let steps: Vec<Step> = (0..nl)
            .map(|i| &bytes[steps_at + 4 * i..])
            .map(|b| Step { skip: b[0], next: b[1], op: b[2], remainder: b[3] })
            .collect();
        let kerns: Vec<i32> = (0..nk).map(|k| scaled(&bytes[kerns_at + 4 * k..], size)).collect();
        let mut widths = [None; 256];
        let mut starts = [None; 257];
        for code in bc..=ec {
            let info = &bytes[infos + 4 * (code - bc)..];
            if info[0] == 0 {
                continue;
            }
            widths[code] = Some(scaled(&bytes[widths_at + 4 * usize::from(info[0])..], size));
            if info[2] % 4 == 1 {
                let first = usize::from(info[3]);
                let step = steps[first];
                let restart = 256 * usize::from(step.op) + usize::from(step.remainder);
                starts[code] = Some(if step.skip > 128 { restart } else { first });
            }
        }
        let mut right = None;
        if nl > 0 && steps[0].skip == 255 {
            right = Some(steps[0].next);
        }
        if nl > 0 && steps[nl - 1].skip == 255 {
            starts[256] = Some(256 * usize::from(steps[nl - 1].op) + usize::from(steps[nl - 1].remainder));
        }
        let mut pairs = Vec::new();
        let mut ends = [0; 258];
        for (side, start) in starts.iter().enumerate() {
            let mut found: [Option<Action>; 256] = [None; 256];
            let mut at = *start;
            while let Some(address) = at {
                let step = steps[address];
                if step.skip <= 128 && found[usize::from(step.next)].is_none() {
                    found[usize::from(step.next)] = Some(action(step, &kerns));
                }
                at = if step.skip >= 128 { None } else { Some(address + usize::from(step.skip) + 1) };
            }
            for code in 0..256 {
                if let Some(action) = found[code] {
                    pairs.push((code as u8, action));
                }
            }
            ends[side + 1] = pairs.len() as u32;
        }
        let space = if count(11) >= 2 { scaled(&bytes[parameters_at + 4..], size) } else { 0 };
        Font { widths, pairs, ends, right, space }
    }

    fn find(&self, side: usize, code: u8) -> Option<Action> {
        let pairs = &self.pairs[self.ends[side] as usize..self.ends[side + 1] as usize];
        pairs.binary_search_by_key(&code, |pair| pair.0).ok().map(|at| pairs[at].1)
    }

    /// Sets a run; the left boundary is side 256, and the right boundary the code `RIGHT`.
    fn set_word(&self, word: &[u8], steps_left: u32, items: &mut Vec<Item>) -> Option<u32> {
        const RIGHT: u16 = 256;
        let mut pending: Vec<u8> = Vec::new();
        let mut rest = word;
        let mut right = self.right.is_some();
        let mut current = 256usize;
        let mut used = 0;
        loop {
            let next = match pending.last().or(rest.first()) {
                Some(code) => u16::from(*code),
                None if right => RIGHT,
                None => break,
            };
            if used == steps_left {
                return None;
            }
            used += 1;
            let code = if next == RIGHT { self.right.unwrap_or(0) } else { next as u8 };
            let found = self.find(current, code);
            let mut consume = true;
            let mut become_next = true;
            match found {
                None => self.send(current, items),
                Some(Action::Kern(amount)) => {
                    self.send(current, items);
                    items.push(Item::Kern(amount));
                }
                Some(Action::Ligature { code, keep_left, keep_right, pass }) => {
                    consume = !keep_right;
                    become_next = false;
                    if keep_left && pass == 0 {
                        take(&mut pending, &mut rest, &mut right, consume);
                        pending.push(code);
                        continue;
                    }
                    if keep_left {
                        self.send(current, items);
                    }
                    if pass == u8::from(keep_left) {
                        current = usize::from(code);
                    } else {
                        self.send(usize::from(code), items);
                        become_next = true;
                        consume = true;
                    }
                }
            }
            take(&mut pending, &mut rest, &mut right, consume);
            if become_next {
                if next == RIGHT {
                    return Some(used);
                }
                current = usize::from(next);
            }
        }
        self.send(current, items);
        Some(used)
    }

    fn send(&self, current: usize, items: &mut Vec<Item>) {
        if current < 256 {
            items.push(Item::Char { code: current as u8, width: self.widths[current].unwrap_or(0) });
        }
    }

    fn answer(&self, line: &[u8]) -> Answer {
        if line.len() > 65_535 {
            return Answer::TooLong(line.len());
        }
        for (offset, &code) in line.iter().enumerate() {
            if code != b' ' && self.widths[usize::from(code)].is_none() {
                return Answer::Missing { offset, code };
            }
        }
        let mut items = Vec::with_capacity(line.len() + line.len() / 4);
        let mut used = 0;
        for (k, piece) in line.split(|byte| *byte == b' ').enumerate() {
            if k > 0 {
                items.push(Item::Space(self.space));
            }
            if piece.is_empty() {
                continue;
            }
            match self.set_word(piece, LIMIT - used, &mut items) {
                Some(steps) => used += steps,
                None => return Answer::Steps(LIMIT),
            }
        }
        items.shrink_to_fit();
        let width = items
            .iter()
            .map(|item| match item {
                Item::Char { width, .. } => i64::from(*width),
                Item::Kern(amount) | Item::Space(amount) => i64::from(*amount),
            })
            .sum();
        Answer::Set { items, width }
    }
}

fn take(pending: &mut Vec<u8>, rest: &mut &[u8], right: &mut bool, consume: bool) {
    if !consume || pending.pop().is_some() {
        return;
    }
    match rest.split_first() {
        Some((_, more)) => *rest = more,
        None => *right = false,
    }
}

/// The two digits of each number below 100.
const PAIRS: &[u8; 200] = b"00010203040506070809101112131415161718192021222324252627282930313233343536373839\
    40414243444546474849505152535455565758596061626364656667686970717273747576777879\
    8081828384858687888990919293949596979899";

/// Appends some bytes, and a number in decimal: its digits are written two at a time from the last one, and copied
/// once. It is what the usual crate for this does, and several times as fast as `write!`.
fn push_number(text: &mut Vec<u8>, before: &[u8], number: i64) {
    let mut digits = [0; 20];
    let mut at = digits.len();
    let mut left = number.unsigned_abs();
    while left >= 100 {
        let pair = 2 * (left % 100) as usize;
        left /= 100;
        at -= 2;
        digits[at..at + 2].copy_from_slice(&PAIRS[pair..pair + 2]);
    }
    if left >= 10 {
        let pair = 2 * left as usize;
        at -= 2;
        digits[at..at + 2].copy_from_slice(&PAIRS[pair..pair + 2]);
    } else {
        at -= 1;
        digits[at] = b'0' + left as u8;
    }
    if number < 0 {
        at -= 1;
        digits[at] = b'-';
    }
    text.extend_from_slice(before);
    text.extend_from_slice(&digits[at..]);
}

fn push_record(place: usize, answer: &Answer, text: &mut Vec<u8>) {
    push_number(text, b"1:", place as i64);
    match answer {
        Answer::Set { items, width } => {
            push_number(text, b" set ", *width);
            for item in items {
                match item {
                    Item::Char { code, width } => {
                        push_number(text, b" c", i64::from(*code));
                        push_number(text, b"=", i64::from(*width));
                    }
                    Item::Kern(amount) => push_number(text, b" k", i64::from(*amount)),
                    Item::Space(amount) => push_number(text, b" s", i64::from(*amount)),
                }
            }
        }
        Answer::Missing { offset, code } => {
            push_number(text, b" refused missing ", *offset as i64);
            push_number(text, b" ", i64::from(*code));
        }
        Answer::TooLong(length) => push_number(text, b" refused too-long ", *length as i64),
        Answer::Steps(limit) => push_number(text, b" refused steps ", i64::from(*limit)),
    }
    text.push(b'\n');
}

fn write_records<W: Write>(answers: &[(Vec<u8>, Answer)], out: &mut W) -> io::Result<()> {
    let mut text = Vec::new();
    for (k, (_, answer)) in answers.iter().enumerate() {
        push_record(k + 1, answer, &mut text);
        if text.len() >= 65_536 {
            out.write_all(&text)?;
            text.clear();
        }
    }
    push_number(&mut text, b"1 end complete ", answers.len() as i64);
    text.push(b'\n');
    out.write_all(&text)
}

fn main() -> io::Result<()> {
    let mut words = env::args().skip(1);
    let font = Font::read(&fs::read(words.next().expect("a font"))?);
    let text = fs::read(words.next().expect("a file"))?;
    let mut lines: Vec<Vec<u8>> = text.split(|byte| *byte == b'\n').map(<[u8]>::to_vec).collect();
    if lines.last().is_some_and(Vec::is_empty) {
        lines.pop();
    }
    drop(text);
    let answers: Vec<(Vec<u8>, Answer)> = lines
        .into_iter()
        .map(|line| {
            let answer = font.answer(&line);
            (line, answer)
        })
        .collect();
    let mut out = io::stdout().lock();
    write_records(&answers, &mut out)?;
    out.flush()
}
