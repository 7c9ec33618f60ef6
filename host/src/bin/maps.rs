//! Holds the program `desk` to `maps.rs`: `maps DESK [COUNT [SEED]]` draws so many floors (10,000 if none are said), damages the maps of most,
//! and compares what `desk sheet` prints and says with `maps.rs`, byte for byte; of every tenth floor also `desk draw`, whole and at one beat.
//! It needs no archive.

#[path = "../draw.rs"]
mod draw;
#[path = "../maps.rs"]
mod maps;
#[path = "../paper.rs"]
mod paper;

use draw::Draw;
use paper::Floor;
use std::io::Write;
use std::process::{Command, Stdio};

/// What a call of `desk` prints and says.
fn desk(program: &str, words: &[String], input: &[u8]) -> (Vec<u8>, Vec<u8>) {
    let mut child = Command::new(program)
        .args(words)
        .stdin(Stdio::piped())
        .stdout(Stdio::piped())
        .stderr(Stdio::piped())
        .spawn()
        .expect("the program starts");
    child.stdin.take().unwrap().write_all(input).ok();
    let out = child.wait_with_output().expect("the program ends");
    (out.stdout, out.stderr)
}

/// What it should print and say.
fn expected(answer: Result<String, String>) -> (Vec<u8>, Vec<u8>) {
    match answer {
        Ok(text) => (text.into_bytes(), Vec::new()),
        Err(words) => (Vec::new(), format!("desk: {words}\n").into_bytes()),
    }
}

/// A floor: mostly small, at times as large as it may be; some cells are starts and docks at once.
fn drawn(d: &mut Draw) -> Floor {
    let side = if d.percent(10) { 32 } else { 8 };
    let (width, height) = (d.between(1, side), d.between(1, side));
    let cells = width * height;
    let free = if d.percent(20) { cells } else { d.between(1, cells) };
    let mut order = d.different(cells, cells);
    let mut walls = order.split_off(free);
    walls.sort();
    let n = d.between(1, 8.min(order.len()));
    let starts = order[..n].to_vec();
    let few = if d.percent(50) { order.len().min(5) } else { order.len() };
    let docks = (0..n)
        .map(|_| {
            let count = d.between(1, few.min(4));
            let mut docks: Vec<usize> = d.different(count, few).iter().map(|&k| order[k]).collect();
            docks.sort();
            docks
        })
        .collect();
    Floor { width, height, horizon: d.between(1, 63), depth: d.between(1, 4), starts, docks, walls }
}

/// A byte that may well stand on a map.
fn byte(d: &mut Draw) -> u8 {
    match d.below(10) {
        0 => d.below(256) as u8,
        1 => b'\n',
        2 => b' ',
        _ => d.of(b"#..#1234567889abcdefghhiABCDEFGHXYZ0"),
    }
}

/// One damage: a byte changed, put in, taken out or doubled; a part cut or doubled; a line doubled or taken out; two lines exchanged.
fn damage(d: &mut Draw, text: &mut Vec<u8>) {
    if text.is_empty() {
        return text.push(byte(d));
    }
    let at = d.below(text.len());
    let end = (at + d.between(1, 40)).min(text.len());
    let mut lines: Vec<Vec<u8>> = text.split_inclusive(|&b| b == b'\n').map(<[u8]>::to_vec).collect();
    let (a, b) = (d.below(lines.len()), d.below(lines.len()));
    match d.below(12) {
        0..=3 => text[at] = byte(d),
        4 => text.insert(at, byte(d)),
        5 => drop(text.remove(at)),
        6 => text.insert(at, text[at]),
        7 => drop(text.drain(at..end)),
        8 => {
            let part = text[at..end].to_vec();
            text.splice(at..at, part);
        }
        9 => {
            let line = lines[a].clone();
            lines.insert(b, line);
            *text = lines.concat();
        }
        10 => {
            lines.remove(a);
            *text = lines.concat();
        }
        _ => {
            lines.swap(a, b);
            *text = lines.concat();
        }
    }
}

fn main() {
    let words: Vec<String> = std::env::args().skip(1).collect();
    let program = words.first().expect("the program's path");
    let number = |k: usize, none: u64| words.get(k).map_or(none, |w| w.parse().expect("a number"));
    let count = number(1, 10_000);
    let mut d = Draw(number(2, 1));
    let (mut read, mut refused) = (0, std::collections::BTreeMap::<String, u64>::new());
    for case in 0..count {
        let floor = drawn(&mut d);
        let mut text = maps::map_of(&floor).into_bytes();
        assert_eq!(maps::print_sheet(&text), Ok(paper::sheet_of(&floor)), "case {case}: a map does not give its floor");
        let damages = d.below(4);
        for _ in 0..damages {
            damage(&mut d, &mut text);
        }
        let wanted = maps::print_sheet(&text);
        match &wanted {
            Ok(_) => read += 1,
            Err(words) => *refused.entry(words.chars().filter(|c| !c.is_ascii_digit()).collect()).or_default() += 1,
        }
        let got = desk(program, &["sheet".into()], &text);
        assert!(got == expected(wanted.clone()), "case {case}: desk {got:?}, paper {wanted:?} on\n{}", String::from_utf8_lossy(&text));
        if case % 10 == 0 {
            let sheet = paper::sheet_of(&floor).into_bytes();
            let beat = d.below(70) as u64;
            for beat in [None, Some(beat)] {
                let mut call = vec!["draw".to_string()];
                call.extend(beat.map(|t| t.to_string()));
                let got = desk(program, &call, &sheet);
                assert!(got == expected(maps::print_draw(&sheet, beat)), "case {case}: {call:?} on\n{}", String::from_utf8_lossy(&sheet));
            }
        }
    }
    let kinds: std::collections::BTreeSet<String> = refused.keys().map(|words| words.split('\'').next_back().unwrap_or("").to_string()).collect();
    println!("{count} maps: {read} read, {} refused in {} ways; all the same", refused.values().sum::<u64>(), kinds.len());
}
