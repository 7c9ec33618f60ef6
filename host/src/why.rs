//! Why a sheet is refused, in words, with the line and the column of the sheet, written from the text of the command `desk why` and from
//! document 01, and not from the proved code: the number and the place of the refusal come from `paper::floor_of_sheet`, the rest from the
//! sheet's lines.
#![allow(dead_code)]

use crate::paper;

/// The names and the limits of line 1's values.
const VALUES: [(&str, usize, usize); 6] = [
    ("the width", 1, 32),
    ("the height", 1, 32),
    ("the horizon", 1, 63),
    ("the depth", 1, 4),
    ("the number of carriers", 1, 8),
    ("the number of walls", 0, 1023),
];

/// The lines of a text, without their newlines; what stands behind the last newline is a line too.
fn lines(text: &[u8]) -> Vec<&[u8]> {
    text.split(|&b| b == b'\n').collect()
}

/// The numbers of a line in good form.
fn numbers(line: &[u8]) -> Vec<usize> {
    line.chunks(5).map(|field| std::str::from_utf8(field).unwrap().trim().parse().unwrap()).collect()
}

fn several(n: usize, noun: &str) -> String {
    format!("{n} {noun}{}", if n == 1 { "" } else { "s" })
}

fn there(n: usize) -> String {
    format!("{n} {} there", if n == 1 { "is" } else { "are" })
}

fn cell(pair: &[usize]) -> String {
    format!("column {}, row {}", pair[0], pair[1])
}

/// The fields that a line, counted from 1, must have, by the good lines before it and its own first fields; none past the last line.
fn fields_of(lines: &[&[u8]], line: usize) -> Option<usize> {
    if line == 1 {
        return Some(6);
    }
    let head = numbers(lines[0]);
    if line <= 1 + head[4] {
        let own = lines[line - 1];
        let count = own.get(10..15).and_then(|field| std::str::from_utf8(field).ok()?.trim().parse::<usize>().ok());
        return Some(3 + 2 * count.unwrap_or(1));
    }
    (line <= 1 + head[4] + head[5]).then_some(2)
}

/// What is wrong with the five bytes of a field; nothing if they are a number.
fn bad_field(bytes: &[u8], k: usize) -> Option<String> {
    if let Some(&b) = bytes.iter().find(|&&b| b != b' ' && !b.is_ascii_digit()) {
        let what = match b {
            b'\n' => "a newline".to_string(),
            b'\r' => "a carriage return".to_string(),
            b'\t' => "a tab".to_string(),
            b if b.is_ascii_alphabetic() => format!("the letter '{}'", b as char),
            b if b.is_ascii_graphic() => format!("the character '{}'", b as char),
            b => format!("the byte {b}"),
        };
        return Some(format!("field {k} has {what} in it"));
    }
    let text = std::str::from_utf8(bytes).unwrap();
    let digits = text.trim_start();
    if digits.is_empty() {
        return Some(format!("field {k} is empty"));
    }
    if digits.contains(' ') {
        return Some(format!("field {k} has a space behind a digit"));
    }
    (digits.len() > 1 && digits.starts_with('0')).then(|| format!("field {k} has a leading zero"))
}

/// What a sheet that ends early lacks. Its lines are taken off its front while all their fields and their newline are there; a field that the end
/// cuts short may hold a newline.
fn missing(text: &[u8]) -> String {
    let mut whole = 0;
    let mut rest = text;
    loop {
        let here = text.len() - rest.len();
        let fields = if whole == 0 {
            6
        } else {
            let head = numbers(&text[..30]);
            let count = || rest.get(10..15).map_or(1, |field| numbers(field)[0]);
            match whole {
                k if k <= head[4] => 3 + 2 * count(),
                _ => 2,
            }
        };
        if rest.len() == 5 * fields {
            return format!("a newline is missing after field {fields}");
        }
        if rest.len() < 5 * fields {
            break;
        }
        whole += 1;
        rest = &text[here + 5 * fields + 1..];
    }
    if whole == 0 {
        return format!("line 1 has 6 fields, {}", there(rest.len() / 5));
    }
    let head = numbers(&text[..30]);
    if whole <= head[4] {
        format!("line 1 counts {}, {}", several(head[4], "carrier"), there(whole - 1))
    } else {
        format!("line 1 counts {}, {}", several(head[5], "wall"), there(whole - 1 - head[4]))
    }
}

/// Refusal 1 with a byte offset.
fn form(text: &[u8], place: usize) -> String {
    if text.is_empty() {
        return "the sheet is empty".to_string();
    }
    let before = lines(&text[..place]);
    let (line, column) = (before.len(), before.last().unwrap().len() + 1);
    if place == text.len() {
        let at = if column == 1 { format!("line {line}") } else { format!("line {line}, column {column}") };
        return format!("the sheet ends in {at}: {}", missing(text));
    }
    let all = lines(text);
    let fields = fields_of(&all, line);
    let at_newline = fields.is_some_and(|m| column == 5 * m + 1);
    let said = match fields {
        None => "nothing may follow the last line".to_string(),
        Some(m) if at_newline => {
            let next_is_newline = text.get(place + 1) == Some(&b'\n');
            match text[place] {
                b'\r' if next_is_newline => "a carriage return stands before the newline".to_string(),
                b'\t' if next_is_newline => "a tab stands before the newline".to_string(),
                b' ' if next_is_newline => "a space stands before the newline".to_string(),
                _ => format!("a newline is missing after field {m}"),
            }
        }
        Some(_) => {
            let bytes = &text[place..place + 5];
            bad_field(bytes, (column - 1) / 5 + 1)
                .unwrap_or_else(|| format!("the dock count is {}, it must be 1 to 4", numbers(bytes)[0]))
        }
    };
    format!("line {line}, column {column}: {said}")
}

/// The refusals of a sheet whose lines are in good form, with an item.
fn placed(text: &[u8], number: u8, item: usize) -> String {
    let rows: Vec<Vec<usize>> = lines(text).into_iter().map(numbers).collect();
    let (width, height, n, walls) = (rows[0][0], rows[0][1], rows[0][4], rows[0][5]);
    let own = &rows[item];
    // The first fields of the pairs of a line: of a carrier's the start and the docks, of a wall's the one.
    let pairs: Vec<usize> = if item <= n { std::iter::once(0).chain((3..own.len()).step_by(2)).collect() } else { vec![0] };
    let owner = |k: usize| match (item <= n, k) {
        (false, _) => format!("wall {}", item - n),
        (true, 0) => format!("carrier {item}'s start"),
        (true, k) => format!("carrier {item}'s dock {k}"),
    };
    let pair = |k: usize| &own[pairs[k]..pairs[k] + 2];
    let (field, said) = match number {
        3 => {
            let outside = |k: usize| own[pairs[k]] >= width || own[pairs[k] + 1] >= height;
            let k = (0..pairs.len()).find(|&k| outside(k)).unwrap();
            let is_column = own[pairs[k]] >= width;
            let (field, word, bound) = if is_column { (pairs[k], "column", width) } else { (pairs[k] + 1, "row", height) };
            (field, format!("{} has {word} {}, outside 0 to {}", owner(k), own[field], bound - 1))
        }
        4 => {
            let before = &rows[item - 1];
            let (this, last) = (item - n, item - n - 1);
            if before == own {
                (0, format!("wall {this} is wall {last} again"))
            } else {
                (0, format!("wall {this} ({}) must come before wall {last} ({})", cell(own), cell(before)))
            }
        }
        5 => {
            let listed = &rows[1 + n..1 + n + walls];
            let k = (0..pairs.len()).find(|&k| listed.iter().any(|wall| wall == pair(k))).unwrap();
            (pairs[k], format!("{} ({}) is a wall", owner(k), cell(pair(k))))
        }
        6 => {
            let other = (1..item).find(|&i| rows[i][..2] == own[..2]).unwrap();
            (0, format!("carrier {item} starts where carrier {other} starts ({})", cell(&own[..2])))
        }
        _ => {
            let k = (1..pairs.len()).find(|&k| (1..k).any(|m| pair(m) == pair(k))).unwrap();
            (pairs[k], format!("carrier {item} has the dock {} twice", cell(pair(k))))
        }
    };
    format!("line {}, column {}: {said}", item + 1, 5 * field + 1)
}

/// What `desk why` prints.
pub fn print_why(text: &[u8]) -> String {
    let said = match paper::floor_of_sheet(text) {
        Ok(floor) => {
            let docks: usize = floor.docks.iter().map(Vec::len).sum();
            format!(
                "accepted: {} by {} cells, horizon {}, depth {}, {} with {}, {}",
                floor.width,
                floor.height,
                floor.horizon,
                floor.depth,
                several(floor.carriers(), "carrier"),
                several(docks, "dock"),
                several(floor.walls.len(), "wall")
            )
        }
        Err(paper::Refusal { number: 1, place }) => form(text, place),
        Err(paper::Refusal { number: 2, place }) => {
            let (name, least, most) = VALUES[place - 1];
            let value = numbers(lines(text)[0])[place - 1];
            format!("line 1, column {}: {name} is {value}, it must be {least} to {most}", 5 * (place - 1) + 1)
        }
        Err(paper::Refusal { number, place }) => placed(text, number, place),
    };
    said + "\n"
}
