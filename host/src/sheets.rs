//! Floors and sheets drawn with a fixed seed, most of the sheets damaged in some way.
#![allow(dead_code)]

use crate::draw::Draw;
use crate::paper::{self, Floor};

/// A floor that is accepted.
pub fn draw_floor(draw: &mut Draw, most: usize) -> Floor {
    let side = |draw: &mut Draw| match draw.below(100) {
        0..=44 => draw.between(1, 5),
        45..=79 => draw.between(2, 10.min(most)),
        _ => draw.between(1, most),
    };
    let (width, height) = (side(draw), side(draw));
    let cells = width * height;
    let horizon = match draw.below(10) {
        0..=4 => draw.between(1, 10),
        5..=7 => draw.between(1, 24),
        _ => draw.of(&[62, 63, 63, 40, 31]),
    };
    let n = draw.between(1, 8.min(cells));
    let starts = draw.different(n, cells);
    let docks = draw_docks(draw, &starts, cells);
    let chance = draw.of(&[0, 0, 5, 15, 30, 50, 100]);
    let all: Vec<usize> = docks.concat();
    let is_wall = |draw: &mut Draw, c: &usize| !starts.contains(c) && !all.contains(c) && draw.percent(chance);
    let walls: Vec<usize> = (0..cells).filter(|c| is_wall(draw, c)).collect();
    Floor { width, height, horizon, depth: draw.between(1, 4), starts, docks, walls }
}

/// The docks of each carrier: one each, all different; the starts of others, so that carriers change places; lists of their own; lists out of
/// a few cells, so that docks are common to several carriers.
pub fn draw_docks(draw: &mut Draw, starts: &[usize], cells: usize) -> Vec<Vec<usize>> {
    let n = starts.len();
    match draw.below(4) {
        0 => draw.different(n, cells).into_iter().map(|dock| vec![dock]).collect(),
        1 => {
            let mut docks = starts.to_vec();
            docks.rotate_left(draw.below(n));
            docks.into_iter().map(|dock| vec![dock]).collect()
        }
        2 => (0..n).map(|_| draw.docks(cells)).collect(),
        _ => {
            let few = draw.between(1, 5.min(cells));
            let common = draw.different(few, cells);
            (0..n).map(|_| draw.docks(few).iter().map(|&k| common[k]).collect()).collect()
        }
    }
}

/// A number that may be outside the limits of a field.
pub fn odd(draw: &mut Draw, cells: usize) -> usize {
    let drawn = draw.below(40);
    draw.of(&[
        0,
        1,
        2,
        3,
        4,
        5,
        7,
        8,
        9,
        31,
        32,
        33,
        62,
        63,
        64,
        255,
        256,
        999,
        1000,
        1022,
        1023,
        1024,
        65535,
        drawn,
        cells,
        cells - 1,
    ])
}

/// The lines of a floor's sheet, as numbers.
pub fn lines_of(floor: &Floor) -> Vec<Vec<usize>> {
    let text = paper::sheet_of(floor);
    text.lines().map(|line| line.split_whitespace().map(|field| field.parse().unwrap()).collect()).collect()
}

/// The first of the two fields of a start (0) or of a dock (from 1) in a carrier's line.
pub fn pair_at(k: usize) -> usize {
    if k == 0 {
        0
    } else {
        1 + 2 * k
    }
}

/// Spoils the numbers of a sheet in one way: a field, a wall's order, a double, a start or a dock on a wall, a dock twice, a count.
pub fn spoil_lines(draw: &mut Draw, lines: &mut [Vec<usize>], floor: &Floor) {
    let (n, walls) = (floor.carriers(), floor.walls.len());
    let carrier = 1 + draw.below(n);
    let docks = floor.docks[carrier - 1].len();
    let wall = |draw: &mut Draw| 1 + n + draw.below(walls.max(1));
    match draw.below(10) {
        0 => lines[0][draw.below(6)] = odd(draw, floor.cells()),
        1 => lines[carrier][draw.below(3 + 2 * docks)] = odd(draw, floor.cells()),
        2 if walls > 0 => lines[wall(draw)][draw.below(2)] = odd(draw, floor.cells()),
        3 if walls > 1 => lines.swap(wall(draw), wall(draw)),
        4 if walls > 1 => {
            let copy = lines[wall(draw)].clone();
            lines[wall(draw)] = copy;
        }
        5 if walls > 0 => {
            let onto = lines[wall(draw)].clone();
            let at = pair_at(draw.below(1 + docks));
            lines[carrier][at..at + 2].copy_from_slice(&onto);
        }
        6 => {
            let other = lines[1 + draw.below(n)].clone();
            lines[carrier][..2].copy_from_slice(&other[..2]);
        }
        8 if lines[carrier].len() == 3 + 2 * docks => {
            // A dock twice: behind the others, or in place of one.
            let from = pair_at(1 + draw.below(docks));
            let twice = lines[carrier][from..from + 2].to_vec();
            if docks < 4 {
                lines[carrier][2] += 1;
                lines[carrier].extend(twice);
            } else {
                let to = pair_at(1 + draw.below(docks));
                lines[carrier][to..to + 2].copy_from_slice(&twice);
            }
        }
        9 => lines[carrier][2] = draw.of(&[0, 5, docks - 1, docks + 1, docks % 4 + 1, 6, 99999]),
        7 => {
            let line = draw.below(lines.len());
            let field = draw.below(lines[line].len());
            lines[line][field] = draw.of(&[10000, 65536, 65537, 65536 + floor.width, 99999, 32768]);
        }
        _ => lines[0][5] = (lines[0][5] + 1).saturating_sub(2 * draw.below(2)),
    }
}

/// Spoils the bytes of a sheet in one way: flipped bytes, cut short, longer, a byte put in or taken out, a field laid out otherwise.
pub fn spoil_bytes(draw: &mut Draw, text: &mut Vec<u8>) {
    let byte = |draw: &mut Draw| {
        let any = draw.next() as u8;
        draw.of(&[b' ', b'0', b'1', b'9', b'\n', b'\r', b'\t', b'-', b'+', b'.', b'/', b':', 0, 255, any, any])
    };
    // Early places more often: most refusals of form lie there in short sheets, but long sheets hide them.
    let place = |draw: &mut Draw, length: usize| {
        let near = length.min(60);
        if draw.percent(50) {
            draw.below(near.max(1))
        } else {
            draw.below(length.max(1))
        }
    };
    match draw.below(9) {
        0..=2 if !text.is_empty() => {
            for _ in 0..draw.between(1, 3) {
                let at = place(draw, text.len());
                text[at] = byte(draw);
            }
        }
        3 | 4 => text.truncate(place(draw, text.len() + 1)),
        5 => {
            for _ in 0..draw.between(1, 12) {
                text.push(byte(draw));
            }
        }
        6 => {
            let at = place(draw, text.len() + 1).min(text.len());
            text.insert(at, byte(draw));
        }
        7 if !text.is_empty() => {
            text.remove(place(draw, text.len()));
        }
        _ if text.len() >= 31 => {
            let field = 5 * draw.below(6);
            let form = draw.of(&[b"   03", b"3    ", b"  3  ", b"     ", b"00000", b"   +3", b"  0 3", b"0x003", b"    \n"]);
            text[field..field + 5].copy_from_slice(form);
        }
        _ => text.push(b'\n'),
    }
}

/// A sheet, mostly damaged, and the floor that it was made from.
pub fn draw_sheet(draw: &mut Draw) -> (Vec<u8>, Floor) {
    let floor = draw_floor(draw, 32);
    if draw.percent(1) {
        let length = draw.below(80);
        return ((0..length).map(|_| draw.of(b"    0123\n")).collect(), floor);
    }
    let mut lines = lines_of(&floor);
    let (in_lines, in_bytes) = draw.of(&[(0, 0), (0, 0), (0, 0), (1, 0), (1, 0), (1, 0), (2, 0), (0, 1), (0, 1), (1, 1), (0, 2)]);
    for _ in 0..in_lines {
        spoil_lines(draw, &mut lines, &floor);
    }
    let mut text: Vec<u8> = lines.iter().flat_map(|line| paper::text_line(line).into_bytes()).collect();
    for _ in 0..in_bytes {
        spoil_bytes(draw, &mut text);
    }
    (text, floor)
}
