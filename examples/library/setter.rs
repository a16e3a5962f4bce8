//! Sets each argument as a line, and prints its width and its items.
//!
//! usage: setter FONT LINE..
//!
//! Compiled without Cargo: `rustc -L PREFIX/lib -l tfmset setter.rs`

use std::env;
use std::fs;
use std::io;
use std::process::ExitCode;

#[repr(C)]
#[derive(Clone, Copy, Default)]
struct Item {
    kind: u32,
    code: u32,
    width: i32,
}

#[repr(C)]
#[derive(Clone, Copy, Default)]
struct Line {
    width: i64,
    first: usize,
    count: usize,
    place: usize,
    steps: u32,
    refusal: u32,
    code: u32,
}

#[repr(C)]
#[derive(Clone, Copy, Default)]
struct Counts {
    lines: usize,
    items: usize,
}

/// Zeros are the defaults.
#[repr(C)]
#[derive(Default)]
struct Options {
    call_limit: u64,
    size: u32,
    limit: u32,
    policy: u32,
    crlf: u32,
}

const DONE: u32 = 0;
const NO_ROOM: u32 = 3;

extern "C" {
    fn tfmset_set(
        font: *const u8,
        font_length: usize,
        options: *const Options,
        text: *const u8,
        text_length: usize,
        lines: *mut Line,
        lines_length: usize,
        items: *mut Item,
        items_length: usize,
        counts: *mut Counts,
    ) -> u32;
}

/// Sets the lines of a text. Returns the lines and all their items, or the return code if it isn't DONE.
fn set(font: &[u8], text: &[u8]) -> Result<(Vec<Line>, Vec<Item>), u32> {
    // The first call has arrays of length 0, and returns the lengths that are needed.
    let options = Options::default();
    let (mut lines, mut items, mut counts) = (Vec::new(), Vec::new(), Counts::default());
    loop {
        // SAFETY: each pointer is followed by the length of its slice or Vec, and no two of them overlap.
        let code = unsafe {
            tfmset_set(
                font.as_ptr(), font.len(), &options, text.as_ptr(), text.len(),
                lines.as_mut_ptr(), lines.len(), items.as_mut_ptr(), items.len(), &mut counts,
            )
        };
        match code {
            DONE => break,
            NO_ROOM => {
                lines.resize(counts.lines, Line::default());
                items.resize(counts.items, Item::default());
            }
            other => return Err(other),
        }
    }
    Ok((lines, items))
}

fn show(item: &Item) -> String {
    match item.kind {
        0 => format!("{}={}", item.code, item.width),
        1 => format!("kern {}", item.width),
        _ => format!("space {}", item.width),
    }
}

fn main() -> io::Result<ExitCode> {
    let arguments: Vec<String> = env::args().skip(1).collect();
    let Some((font, lines)) = arguments.split_first() else {
        return Ok(ExitCode::FAILURE);
    };
    let font = fs::read(font)?;
    let (lines, items) = match set(&font, lines.join("\n").as_bytes()) {
        Ok(set) => set,
        Err(code) => {
            eprintln!("tfmset_set returned {code}");
            return Ok(ExitCode::FAILURE);
        }
    };
    for line in lines {
        match line.refusal {
            0 => {
                let shown: Vec<String> = items[line.first..][..line.count].iter().map(show).collect();
                println!("{}: {}", line.width, shown.join(", "));
            }
            1 => println!("no character {} at {}", line.code, line.place),
            _ => println!("too long, or too many steps"),
        }
    }
    Ok(ExitCode::SUCCESS)
}
