//! Holds the program `desk` to an independent implementation of its texts: damaged sheets with a fixed seed, each given to `desk why`, whose
//! line, column and words must be those of `why.rs`, and of every tenth the bytes of `desk picture` those of `picture.rs`. It needs no
//! archive.
//!
//!     desk [COUNT]          so many sheets, 10,000 if none are said; the program is crates/desk/out/desk of the repository

#[path = "../draw.rs"]
mod draw;
#[path = "../paper.rs"]
mod paper;
#[path = "../picture.rs"]
mod picture;
#[path = "../sheets.rs"]
mod sheets;
#[path = "../why.rs"]
mod why;

use draw::Draw;
use std::collections::BTreeMap;
use std::io::Write;
use std::process::{exit, Command, Stdio};

const SHEETS: u64 = 10_000;

/// Ends of lines as other systems and editors leave them, and bytes put where the form allows none.
fn spoil_ends(draw: &mut Draw, text: &mut Vec<u8>) {
    let ends: Vec<usize> = (0..text.len()).filter(|&k| text[k] == b'\n').collect();
    if ends.is_empty() {
        return;
    }
    let end = draw.of(&ends);
    match draw.below(7) {
        0 => *text = text.iter().flat_map(|&b| if b == b'\n' { vec![b'\r', b'\n'] } else { vec![b] }).collect(),
        1 => text.truncate(text.len() - 1),
        2 => text.insert(end, draw.of(b" \t\rx")),
        3 => text[end] = draw.of(b" \t\r0x"),
        4 => text.truncate(end + draw.below(2)),
        5 => {
            let at = end.saturating_sub(5 * draw.between(1, 4));
            let form = draw.of(&[
                b"   03",
                b"    %",
                b"  1 2",
                b"12   ",
                b"     ",
                b"   1a",
                b"   \xc3\xa9",
                b"  \t 1",
                b"\r   1",
                b" 1\n 2",
            ]);
            if at + 5 <= text.len() {
                text[at..at + 5].copy_from_slice(form);
            }
        }
        _ => text.push(draw.of(b"\n 0x")),
    }
}

/// What the program prints for a sheet.
fn run(program: &str, command: &str, sheet: &[u8]) -> Vec<u8> {
    let mut child =
        Command::new(program).arg(command).stdin(Stdio::piped()).stdout(Stdio::piped()).spawn().expect("crates/desk/out/desk");
    child.stdin.take().unwrap().write_all(sheet).unwrap();
    child.wait_with_output().unwrap().stdout
}

/// A reason without its numbers and its characters in quotes, by which reasons are counted.
fn kind(words: &str) -> String {
    let mut kind = String::new();
    let mut quoted = false;
    for c in words.trim_end().chars() {
        let apart = c == '\'' && !kind.ends_with('N');
        quoted ^= apart;
        match c {
            _ if quoted && !apart => {}
            '0'..='9' if kind.ends_with('N') => {}
            '0'..='9' => kind.push('N'),
            c => kind.push(c),
        }
    }
    kind
}

/// Ends with both texts where they are not the same.
fn hold(sheet: &[u8], seed: u64, printed: &[u8], expected: &str) {
    if printed != expected.as_bytes() {
        println!("sheet {seed}:\n{}", String::from_utf8_lossy(sheet));
        println!("desk:  {}paper: {expected}", String::from_utf8_lossy(printed));
        exit(1);
    }
}

fn main() {
    let count = std::env::args().nth(1).map_or(SHEETS, |word| word.parse().expect("a number of sheets"));
    let program = concat!(env!("CARGO_MANIFEST_DIR"), "/../crates/desk/out/desk");
    let mut kinds: BTreeMap<String, u64> = BTreeMap::new();
    let (mut pictures, mut longest) = (0, 0);
    for seed in 1..=count {
        let mut draw = Draw(seed);
        let (mut text, _) = sheets::draw_sheet(&mut draw);
        if draw.percent(40) {
            spoil_ends(&mut draw, &mut text);
        }
        let expected = why::print_why(&text);
        hold(&text, seed, &run(program, "why", &text), &expected);
        *kinds.entry(kind(&expected)).or_default() += 1;
        if seed % 10 == 0 {
            let drawn = picture::print_picture(&text);
            hold(&text, seed, &run(program, "picture", &text), &drawn);
            longest = longest.max(drawn.len());
            pictures += 1;
        }
    }
    for (kind, count) in &kinds {
        println!("{count:6}  {kind}");
    }
    let kinds = kinds.len();
    println!("desk: {count} sheets, {kinds} kinds of reasons, {pictures} pictures, the longest of {longest} bytes: the program and the paper agree");
}
