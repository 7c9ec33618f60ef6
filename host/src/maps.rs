//! Maps of floors and floors drawn beat by beat, in plain Rust, by the rules that `docs/MAPS.md` has. It shares no code with the proved
//! crates, and has the same author: what both misread alike it does not show. `desk sheet` and `desk draw` are compared with it.
#![allow(dead_code)]

use crate::paper::{self, Floor};
use std::collections::BTreeMap;

/// The most columns and the most rows.
const SIDE: usize = 32;

/// A thing that a cell can be: the start of a carrier, or a dock of it. Carriers count from 0.
#[derive(Clone, Copy, PartialEq, Eq, PartialOrd, Ord, Debug)]
enum Thing {
    Start(usize),
    Dock(usize),
}

fn thing_of(b: u8) -> Option<Thing> {
    match b {
        b'1'..=b'8' => Some(Thing::Start((b - b'1') as usize)),
        b'a'..=b'h' => Some(Thing::Dock((b - b'a') as usize)),
        _ => None,
    }
}

fn byte_of(thing: Thing) -> u8 {
    match thing {
        Thing::Start(i) => b'1' + i as u8,
        Thing::Dock(i) => b'a' + i as u8,
    }
}

/// A byte as a refusal names it.
fn quoted(b: u8) -> String {
    if b.is_ascii_graphic() {
        format!("'{}'", b as char)
    } else {
        format!("byte {b}")
    }
}

/// The lines of a text, each with whether a newline ends it.
fn lines_of(text: &[u8]) -> Vec<(&[u8], bool)> {
    text.split_inclusive(|&b| b == b'\n')
        .map(|line| match line.strip_suffix(b"\n") {
            Some(line) => (line, true),
            None => (line, false),
        })
        .collect()
}

/// The two numbers of line 1, if its form is right.
fn head_of(line: (&[u8], bool)) -> Option<(u64, u64)> {
    let (bytes, true) = line else { return None };
    let words = std::str::from_utf8(bytes).ok()?;
    let (horizon, depth) = words.strip_prefix("horizon ")?.split_once(" depth ")?;
    let number = |word: &str| {
        let digits = !word.is_empty() && word.bytes().all(|b| b.is_ascii_digit());
        digits.then(|| word.parse().unwrap_or(u64::MAX))
    };
    Some((number(horizon)?, number(depth)?))
}

/// The floor of a map, or what is wrong with it in words.
pub fn floor_of_map(text: &[u8]) -> Result<Floor, String> {
    let lines = lines_of(text);
    let Some((horizon, depth)) = lines.first().and_then(|&line| head_of(line)) else {
        return Err("line 1 is not 'horizon H depth D'".into());
    };
    if !(1..=63).contains(&horizon) {
        return Err("line 1: the horizon is not 1 to 63".into());
    }
    if !(1..=4).contains(&depth) {
        return Err("line 1: the depth is not 1 to 4".into());
    }
    let behind = (1..lines.len()).find(|&k| lines[k].0.get(1) == Some(&b' ')).unwrap_or(lines.len());
    let rows = rows_of(&lines[1..behind])?;
    let letters = letters_of(&lines, behind, &rows)?;
    let mut things = Vec::new();
    for (r, row) in rows.iter().enumerate() {
        for (k, &b) in row.iter().enumerate() {
            if b.is_ascii_uppercase() {
                let Some(of) = letters.get(&b) else {
                    return Err(format!("line {}, column {}: {} has no line", r + 2, k + 1, quoted(b)));
                };
                things.push(of.clone());
            } else {
                things.push(thing_of(b).into_iter().collect());
            }
        }
    }
    let marks: Vec<u8> = rows.concat();
    let (starts, docks) = carriers_of(&things)?;
    let walls = (0..marks.len()).filter(|&c| marks[c] == b'#').collect();
    Ok(Floor { width: rows[0].len(), height: rows.len(), horizon: horizon as usize, depth: depth as usize, starts, docks, walls })
}

/// The rows, from line 2 on.
fn rows_of<'a>(lines: &[(&'a [u8], bool)]) -> Result<Vec<&'a [u8]>, String> {
    if lines.is_empty() {
        return Err("there is no row".into());
    }
    let width = lines[0].0.len();
    for (k, &(row, ended)) in lines.iter().enumerate() {
        let line = k + 2;
        if k == SIDE {
            return Err(format!("line {line}: there are more than 32 rows"));
        }
        if row.len() > SIDE {
            return Err(format!("line {line} has more than 32 cells"));
        }
        if !ended {
            return Err(format!("line {line} has no newline at its end"));
        }
        if row.is_empty() {
            return Err(format!("line {line} is empty"));
        }
        if row.len() != width {
            let cells = if row.len() == 1 { "cell" } else { "cells" };
            return Err(format!("line {line} has {} {cells}, line 2 has {width}", row.len()));
        }
        let bad = |b: u8| !(b == b'#' || b == b'.' || b.is_ascii_uppercase() || thing_of(b).is_some());
        if let Some(k) = row.iter().position(|&b| bad(b)) {
            return Err(format!("line {line}, column {}: {} is no mark", k + 1, quoted(row[k])));
        }
    }
    Ok(lines.iter().map(|line| line.0).collect())
}

/// What each capital letter stands for, from the lines behind the rows.
fn letters_of(lines: &[(&[u8], bool)], behind: usize, rows: &[&[u8]]) -> Result<BTreeMap<u8, Vec<Thing>>, String> {
    let mut letters = BTreeMap::new();
    for (k, &(bytes, ended)) in lines.iter().enumerate().skip(behind) {
        let line = k + 1;
        let letter = *bytes.first().unwrap_or(&b'\n');
        if !letter.is_ascii_uppercase() {
            return Err(format!("line {line}, column 1: {} is no letter", quoted(letter)));
        }
        if bytes.get(1) != Some(&b' ') {
            return Err(format!("line {line}, column 2: a space is missing"));
        }
        let mut things = Vec::new();
        for (c, &b) in bytes.iter().enumerate().skip(2) {
            let Some(thing) = thing_of(b) else {
                return Err(format!("line {line}, column {}: {} is no mark", c + 1, quoted(b)));
            };
            if things.contains(&thing) {
                return Err(format!("line {line}, column {}: {} stands twice", c + 1, quoted(b)));
            }
            things.push(thing);
        }
        if !ended {
            return Err(format!("line {line} has no newline at its end"));
        }
        if things.len() < 2 {
            return Err(format!("line {line} has fewer than two marks"));
        }
        if letters.contains_key(&letter) {
            return Err(format!("line {line}: {} has a line already", quoted(letter)));
        }
        if !rows.iter().any(|row| row.contains(&letter)) {
            return Err(format!("line {line}: {} is on no row", quoted(letter)));
        }
        letters.insert(letter, things);
    }
    Ok(letters)
}

/// The start and the docks of each carrier, from what each cell is.
fn carriers_of(things: &[Vec<Thing>]) -> Result<(Vec<usize>, Vec<Vec<usize>>), String> {
    let cells = |thing: Thing| -> Vec<usize> { (0..things.len()).filter(|&c| things[c].contains(&thing)).collect() };
    let highest = things.iter().flatten().map(|thing| match thing {
        Thing::Start(i) | Thing::Dock(i) => i + 1,
    });
    let Some(n) = highest.max() else {
        return Err("there is no carrier".into());
    };
    let (mut starts, mut docks) = (Vec::new(), Vec::new());
    for i in 0..n {
        let (from, to) = (cells(Thing::Start(i)), cells(Thing::Dock(i)));
        match from.len() {
            0 => return Err(format!("carrier {} has no start", i + 1)),
            1 => starts.push(from[0]),
            k => return Err(format!("carrier {} has {k} starts", i + 1)),
        }
        match to.len() {
            0 => return Err(format!("carrier {} has no dock", i + 1)),
            1..=4 => docks.push(to),
            k => return Err(format!("carrier {} has {k} docks", i + 1)),
        }
    }
    Ok((starts, docks))
}

/// What `desk sheet` prints for a map, or says on standard error.
pub fn print_sheet(text: &[u8]) -> Result<String, String> {
    Ok(paper::sheet_of(&floor_of_map(text)?))
}

/// All that a cell is, starts first.
fn things_in(floor: &Floor, c: usize) -> Vec<Thing> {
    let starts = (0..floor.carriers()).filter(|&i| floor.starts[i] == c).map(Thing::Start);
    let docks = (0..floor.carriers()).filter(|&i| floor.docks[i].contains(&c)).map(Thing::Dock);
    starts.chain(docks).collect()
}

/// The floor as rows of characters.
fn rows_by(floor: &Floor, mark: impl Fn(usize) -> u8) -> String {
    let mut out = String::new();
    for row in 0..floor.height {
        for column in 0..floor.width {
            out.push(mark(row * floor.width + column) as char);
        }
        out.push('\n');
    }
    out
}

/// The map of a floor.
pub fn map_of(floor: &Floor) -> String {
    let shared: Vec<usize> = (0..floor.cells()).filter(|&c| things_in(floor, c).len() > 1).collect();
    let letter = |c: usize| shared.iter().position(|&d| d == c).map(|k| b'A' + k as u8);
    let rows = rows_by(floor, |c| match things_in(floor, c)[..] {
        _ if floor.walls.contains(&c) => b'#',
        [] => b'.',
        [thing] => byte_of(thing),
        _ => letter(c).unwrap(),
    });
    let mut out = format!("horizon {} depth {}\n{rows}", floor.horizon, floor.depth);
    for &c in &shared {
        let marks: String = things_in(floor, c).into_iter().map(|thing| byte_of(thing) as char).collect();
        out += &format!("{} {marks}\n", letter(c).unwrap() as char);
    }
    out
}

/// The floor at a beat, under a line with the beat.
fn frame(floor: &Floor, answers: &[paper::Answer], beat: usize) -> String {
    let there = |c: usize| -> Vec<u8> {
        (0..floor.carriers())
            .filter_map(|i| match &answers[i] {
                Some(route) => (route[beat] as usize == c).then_some(b'1' + i as u8),
                None => (floor.starts[i] == c).then_some(b'A' + i as u8),
            })
            .collect()
    };
    let still = |c: usize| {
        let docks: Vec<usize> = (0..floor.carriers()).filter(|&i| floor.docks[i].contains(&c)).collect();
        match docks[..] {
            [] if floor.starts.contains(&c) => b'-',
            [] => b'.',
            [i] => b'a' + i as u8,
            _ => b'+',
        }
    };
    let rows = rows_by(floor, |c| match there(c)[..] {
        _ if floor.walls.contains(&c) => b'#',
        [] => still(c),
        [only] => only,
        _ => b'*',
    });
    format!("beat {beat}\n{rows}")
}

/// What `desk draw` prints for a sheet, whole or at one beat, or says on standard error.
pub fn print_draw(text: &[u8], beat: Option<u64>) -> Result<String, String> {
    let floor = match paper::floor_of_sheet(text) {
        Ok(floor) => floor,
        Err(r) => return Ok(paper::text_line(&[0, r.number as usize, r.place])),
    };
    let (answers, _) = paper::plan(&floor);
    if let Some(beat) = beat {
        if beat > floor.horizon as u64 {
            return Err("the beat is above the horizon".into());
        }
        return Ok(frame(&floor, &answers, beat as usize));
    }
    let mut out = map_of(&floor) + "\n";
    for (i, answer) in answers.iter().enumerate() {
        out += &match answer {
            Some(route) => format!("carrier {} arrives at beat {}\n", i + 1, paper::arrival_of(route, floor.horizon)),
            None => format!("carrier {} has no route and stays at its start\n", i + 1),
        };
    }
    for beat in 0..=floor.horizon {
        out += "\n";
        out += &frame(&floor, &answers, beat);
    }
    Ok(out)
}
