//! The routes program over `paper.rs` alone: a sheet on standard input, its routes on standard output; with the arguments
//! `trial ORDER SEED` the text of a trial, with `runs [RANK]` that of the complete runs, with `meeting I J` that of
//! a meeting, with `blockers` that of the stranded carriers, with `draw [BEAT]` the floor beat by beat, with `sheet` the sheet of a map, with
//! `why` the reason of a refusal, with `picture` the picture of the routes, with `tryouts` all of these by a script of sections. It needs no
//! archive.
//! Its tests (`cargo test --bin paper`) hold `paper.rs` to document 01's twelve floors, its search to a search of all routes, and the
//! benchmark's other planners to `paper.rs`.

#[cfg(test)]
#[path = "../astar.rs"]
mod astar;
#[cfg(test)]
#[path = "../bits.rs"]
mod bits;
#[cfg(test)]
#[path = "../draw.rs"]
mod draw;
#[path = "../maps.rs"]
mod maps;
#[path = "../paper.rs"]
mod paper;
#[path = "../picture.rs"]
mod picture;
#[path = "../why.rs"]
mod why;

use std::io::{Read, Write};

/// A text for standard output; what is wrong goes to standard error.
fn said(answer: Result<String, String>) -> String {
    answer.unwrap_or_else(|words| {
        eprintln!("desk: {words}");
        String::new()
    })
}

/// What the program `tryouts` prints for its script: each section is a line with a command, its numbers and a length, then so many bytes and
/// a newline.
fn tryouts(script: &[u8]) -> String {
    let mut out = String::new();
    let mut rest = script;
    while !rest.is_empty() {
        let end = rest.iter().position(|&b| b == b'\n').expect("a section's line");
        let line = std::str::from_utf8(&rest[..end]).expect("a section's line");
        let words: Vec<&str> = line.split(' ').collect();
        let number = |k: usize| words[k].parse::<u64>().expect("a number");
        let length = number(words.len() - 1) as usize;
        let sheet = &rest[end + 1..end + 1 + length];
        out += &format!("{line}\n");
        out += &match words[1] {
            "why" => why::print_why(sheet),
            "picture" => picture::print_picture(sheet),
            "meeting" => paper::print_meeting(sheet, number(2), number(3)),
            "blockers" => paper::print_blockers(sheet),
            "draw" => maps::print_draw(sheet, None).unwrap_or_default(),
            "at" => maps::print_draw(sheet, Some(number(2))).unwrap_or_default(),
            "sheet" => maps::print_sheet(sheet).unwrap_or_else(|words| words + "\n"),
            command => panic!("no command {command}"),
        };
        rest = &rest[end + 1 + length + 1..];
    }
    out
}

fn main() -> std::io::Result<()> {
    let mut text = Vec::new();
    std::io::stdin().read_to_end(&mut text)?;
    let words: Vec<String> = std::env::args().skip(1).collect();
    let number = |k: usize| words.get(k).and_then(|w| w.parse().ok()).unwrap_or(0u64);
    let out = match words.first().map(String::as_str) {
        Some("trial") => paper::print_trial(&text, number(1), number(2) as u32),
        Some("runs") => paper::print_runs(&text, (words.len() > 1).then(|| number(1))),
        Some("meeting") => paper::print_meeting(&text, number(1), number(2)),
        Some("blockers") => paper::print_blockers(&text),
        Some("draw") => said(maps::print_draw(&text, (words.len() > 1).then(|| number(1)))),
        Some("sheet") => said(maps::print_sheet(&text)),
        Some("why") => why::print_why(&text),
        Some("picture") => picture::print_picture(&text),
        Some("tryouts") => tryouts(&text),
        _ => paper::print_routes(&text),
    };
    std::io::stdout().write_all(out.as_bytes())
}

#[cfg(test)]
mod tests {
    use super::draw::Draw;
    use super::maps;
    use super::paper::{self, calls, Answer, Floor, Route, View};

    const SHEET: &str = "    3    2    4    1    2    0\n    0    0    1    2    0\n    2    0    1    0    0\n";

    fn done(case: u64, number: u64) -> u64 {
        case << 8 | number << 16
    }

    fn refused(number: u64, place: u64) -> u64 {
        1 | number << 8 | place << 16
    }

    /// A floor without walls, each carrier with one dock.
    fn bare(width: usize, height: usize, horizon: usize, depth: usize, pairs: &[(usize, usize)]) -> Floor {
        let starts = pairs.iter().map(|p| p.0).collect();
        let docks = pairs.iter().map(|p| vec![p.1]).collect();
        Floor { width, height, horizon, depth, starts, docks, walls: Vec::new() }
    }

    /// A floor without walls, of depth 1, each carrier with its docks.
    fn docked(width: usize, height: usize, horizon: usize, carriers: &[(usize, &[usize])]) -> Floor {
        let starts = carriers.iter().map(|c| c.0).collect();
        let docks = carriers.iter().map(|c| c.1.to_vec()).collect();
        Floor { width, height, horizon, depth: 1, starts, docks, walls: Vec::new() }
    }

    fn fresh_memory(record: &[u16]) -> Vec<u16> {
        let mut memory = vec![7; paper::state_length(record[4] as usize)];
        assert_eq!(calls::fresh(record, &[], &mut memory), done(0, 0));
        memory
    }

    fn cells(route: &Answer, horizon: usize) -> Vec<u16> {
        route.expect("a route")[..=horizon].to_vec()
    }

    /// Document 01's third floor as a map and beat by beat, written by hand, and one map for each refusal.
    #[test]
    fn maps_and_frames() {
        let map = "horizon 4 depth 1\nA.B\n...\nA 1b\nB 2a\n";
        assert_eq!(maps::print_sheet(map.as_bytes()), Ok(SHEET.to_string()));
        let arrivals = "carrier 1 arrives at beat 2\ncarrier 2 arrives at beat 4\n";
        let beats = "\nbeat 0\n1.2\n...\n\nbeat 1\nb1a\n..2\n\nbeat 2\nb.1\n.2.\n\nbeat 3\nb21\n...\n\nbeat 4\n2.1\n...\n";
        assert_eq!(maps::print_draw(SHEET.as_bytes(), None), Ok(format!("{map}\n{arrivals}{beats}")));
        assert_eq!(maps::print_draw(SHEET.as_bytes(), Some(3)), Ok("beat 3\nb21\n...\n".into()));
        assert_eq!(maps::print_draw(SHEET.as_bytes(), Some(5)), Err("the beat is above the horizon".into()));
        for (text, words) in [
            ("horizon 4  depth 1\n1a\n", "line 1 is not 'horizon H depth D'"),
            ("horizon 64 depth 1\n1a\n", "line 1: the horizon is not 1 to 63"),
            ("horizon 4 depth 0\n1a\n", "line 1: the depth is not 1 to 4"),
            ("horizon 4 depth 1\n", "there is no row"),
            ("horizon 4 depth 1\n1a\n...\n", "line 3 has 3 cells, line 2 has 2"),
            ("horizon 4 depth 1\n1a\n.\n", "line 3 has 1 cell, line 2 has 2"),
            ("horizon 4 depth 1\n1a\n..", "line 3 has no newline at its end"),
            ("horizon 4 depth 1\n1a\n\n", "line 3 is empty"),
            ("horizon 4 depth 1\n1a..............................x\n", "line 2 has more than 32 cells"),
            ("horizon 4 depth 1\n1a\n.x\n", "line 3, column 2: 'x' is no mark"),
            ("horizon 4 depth 1\n1a\n.\t\n", "line 3, column 2: byte 9 is no mark"),
            ("horizon 4 depth 1\nA.\nA 1a\n..\n", "line 4, column 1: '.' is no letter"),
            ("horizon 4 depth 1\nAB\nA 1a\nB1\n", "line 4, column 2: a space is missing"),
            ("horizon 4 depth 1\nA.\nA 1A\n", "line 3, column 4: 'A' is no mark"),
            ("horizon 4 depth 1\nA.\nA 1a1\n", "line 3, column 5: '1' stands twice"),
            ("horizon 4 depth 1\nA.\nA 1\n", "line 3 has fewer than two marks"),
            ("horizon 4 depth 1\nA.\nA 1a\nA 2b\n", "line 4: 'A' has a line already"),
            ("horizon 4 depth 1\nA.\nA 1a\nB 2b\n", "line 4: 'B' is on no row"),
            ("horizon 4 depth 1\n1a\n.B\n", "line 3, column 2: 'B' has no line"),
            ("horizon 4 depth 1\n#.\n", "there is no carrier"),
            ("horizon 4 depth 1\n1a\n3c\n", "carrier 2 has no start"),
            ("horizon 4 depth 1\n1a\n1.\n", "carrier 1 has 2 starts"),
            ("horizon 4 depth 1\n1.\n", "carrier 1 has no dock"),
            ("horizon 4 depth 1\n1aaaaa\n", "carrier 1 has 5 docks"),
        ] {
            assert_eq!(maps::print_sheet(text.as_bytes()), Err(words.to_string()));
        }
        let rows = "1a\n".to_string() + &"..\n".repeat(32);
        let high = maps::print_sheet(format!("horizon 4 depth 1\n{rows}").as_bytes());
        assert_eq!(high, Err("line 34: there are more than 32 rows".to_string()));
    }

    #[test]
    fn floors_1_to_3() {
        let (answers, failing) = paper::plan(&bare(1, 1, 5, 1, &[(0, 0)]));
        assert_eq!((paper::arrival_of(&answers[0].unwrap(), 5), failing), (0, 0));
        let three = "    2    0\n    1    2    0    1    2    2    2\n    2    4    2    5    4    1    0\n";
        assert_eq!(paper::print_routes(SHEET.as_bytes()), three);
        let short = SHEET.replacen("    4", "    3", 1);
        assert_eq!(paper::print_routes(short.as_bytes()), "    2    2\n    1    2    0    1    2    2\n    2 none\n");
    }

    /// Document 02, slip 1. By hand: from seed 0 the first number is 1,013,904,223, which draws 15,470, even, and so plan 1 of two open
    /// plans; from seed 4,294,967,295 it is 1,012,239,698, which draws 15,445, odd, and so plan 2.
    #[test]
    fn trials() {
        let floor = paper::floor_of_sheet(SHEET.as_bytes()).unwrap();
        let numbers = |order, seed| -> Vec<u16> { paper::trial(&floor, order, seed).iter().map(|line| line.0).collect() };
        assert_eq!(numbers(1, 0), [101, 102, 212, 102]);
        assert_eq!(numbers(2, 0), [101, 102, 212, 102]);
        assert_eq!(numbers(3, 0)[0], 101);
        assert_eq!(numbers(3, u32::MAX)[0], 102);
        let text = paper::print_trial(SHEET.as_bytes(), 1, 0);
        let report = "    2    1    4\n    1  101 sent\n    2  102 sent\n    3  212 delivered\n    4  102 sent\n";
        assert_eq!(text, report.to_string() + &paper::print_routes(SHEET.as_bytes()));
        assert_eq!(paper::print_trial(SHEET.as_bytes(), 4, 0), "    0   11    0\n");
        assert_eq!(paper::print_trial(b"", 4, 0), "    0    1    0\n");
    }

    /// Document 02, slip 6: the three runs of two carriers; the totals of three, by depth and by whether carrier 2's answer changes on
    /// hearing carrier 1.
    #[test]
    fn runs() {
        let three = "3\n0 101 102 212 102\n1 101 212 102\n2 102 101 212 102\n";
        assert_eq!(paper::print_runs(SHEET.as_bytes(), None), three);
        assert_eq!(paper::print_runs(SHEET.as_bytes(), Some(1)), "3\n1 101 212 102\n");
        assert_eq!(paper::print_runs(SHEET.as_bytes(), Some(3)), "    0   15    0\n");
        assert_eq!(paper::print_runs(b"", None), "    0    1    0\n");
        let total = |depth, pairs: &[(usize, usize)]| paper::runs(&bare(8, 3, 10, depth, pairs)).len();
        let (apart, crossing) = ([(0, 7), (8, 15), (16, 23)], [(0, 7), (7, 0), (16, 23)]);
        assert_eq!([total(1, &apart), total(2, &apart), total(4, &apart)], [495, 620, 620]);
        assert_eq!([total(1, &crossing), total(2, &crossing), total(4, &crossing)], [888, 1186, 1186]);
        assert_eq!(total(1, &[(0, 1)]), 1);
    }

    /// Why a sheet is refused, each sentence worked out by hand: a byte of line l is counted behind the newlines of the lines before it.
    #[test]
    fn reasons() {
        let told = |sheet: &str| super::why::print_why(sheet.as_bytes());
        assert_eq!(told(SHEET), "accepted: 3 by 2 cells, horizon 4, depth 1, 2 carriers with 2 docks, 0 walls\n");
        let spoilt = |from: &str, to: &str| told(&SHEET.replacen(from, to, 1));
        assert_eq!(spoilt("    4    1", "   04    1"), "line 1, column 11: field 3 has a leading zero\n");
        assert_eq!(
            spoilt("    1    2    0\n    2", "    1    2    %\n    2"),
            "line 2, column 21: field 5 has the character '%' in it\n"
        );
        assert_eq!(spoilt("    1    0    0\n", "    1 1  0    0\n"), "line 3, column 16: field 4 has a space behind a digit\n");
        assert_eq!(
            spoilt("    1    2    0\n    2", "    5    2    0\n    2"),
            "line 2, column 11: the dock count is 5, it must be 1 to 4\n"
        );
        assert_eq!(told(&SHEET.replace('\n', "\r\n")), "line 1, column 31: a carriage return stands before the newline\n");
        assert_eq!(
            spoilt("    2    0\n    2", "    2    0    1\n    2"),
            "line 2, column 26: a newline is missing after field 5\n"
        );
        assert_eq!(told(&(SHEET.to_string() + " ")), "line 4, column 1: nothing may follow the last line\n");
        assert_eq!(told(""), "the sheet is empty\n");
        assert_eq!(told(&SHEET[..SHEET.len() - 1]), "the sheet ends in line 3, column 26: a newline is missing after field 5\n");
        assert_eq!(told(&SHEET[..57]), "the sheet ends in line 3: line 1 counts 2 carriers, 1 is there\n");
        assert_eq!(told(&SHEET[..62]), "the sheet ends in line 3, column 6: line 1 counts 2 carriers, 1 is there\n");
        assert_eq!(spoilt("    4    1", "   64    1"), "line 1, column 11: the horizon is 64, it must be 1 to 63\n");
        assert_eq!(
            spoilt("    1    2    0\n    2", "    1    3    0\n    2"),
            "line 2, column 16: carrier 1's dock 1 has column 3, outside 0 to 2\n"
        );
        assert_eq!(
            spoilt("    2    0    1    0    0\n", "    0    0    1    0    0\n"),
            "line 3, column 1: carrier 2 starts where carrier 1 starts (column 0, row 0)\n"
        );
        assert_eq!(
            spoilt("    1    2    0\n    2", "    2    2    0    2    0\n    2"),
            "line 2, column 26: carrier 1 has the dock column 2, row 0 twice\n"
        );
        let walled = |lines: &str| told(&(SHEET.replacen("    2    0\n", "    2    2\n", 1) + lines));
        assert_eq!(
            walled("    1    1\n    1    0\n"),
            "line 5, column 1: wall 2 (column 1, row 0) must come before wall 1 (column 1, row 1)\n"
        );
        assert_eq!(walled("    1    1\n    1    1\n"), "line 5, column 1: wall 2 is wall 1 again\n");
        assert_eq!(walled("    0    0\n    1    1\n"), "line 2, column 1: carrier 1's start (column 0, row 0) is a wall\n");
        assert_eq!(walled("    1    1\n    1    2\n"), "line 5, column 6: wall 2 has row 2, outside 0 to 1\n");
    }

    /// Document 02, slip 8: by one, by two together, by a stranded one, by walls, by the horizon, an order that matters; nobody; refused.
    #[test]
    fn blockers() {
        let shown = |sheet: &str| paper::print_blockers(sheet.as_bytes());
        let one = "    3    1    4    1    2    0\n    1    0    1    1    0\n    0    0    1    2    0\n";
        assert_eq!(shown(one), "carrier 2 is shut in by 1\n2..\n");
        let two =
            "    3    2    4    1    3    0\n    1    0    1    1    0\n    1    1    1    1    1\n    0    0    1    2    0\n";
        assert_eq!(shown(two), "carrier 3 is shut in by 1 2\n3..\n...\n");
        let stranded = "    5    1    2    1    2    1\n    1    0    1    4    0\n    0    0    1    2    0\n    3    0\n";
        assert_eq!(shown(stranded), "carrier 1 is shut in by walls or the horizon\ncarrier 2 is shut in by 1\n21.#.\n");
        let walls = "    4    1    3    1    2    1\n    0    0    1    0    0\n    1    0    1    3    0\n    2    0\n";
        assert_eq!(shown(walls), "carrier 2 is shut in by walls or the horizon\n.2#.\n");
        let short = one.replace("    4    1    2", "    1    1    2");
        assert_eq!(shown(&short), "carrier 2 is shut in by walls or the horizon\n2..\n");
        let row =
            "    4    1    3    1    3    0\n    1    0    1    1    0\n    2    0    1    2    0\n    0    0    1    3    0\n";
        assert_eq!(shown(row), "carrier 3 is shut in by 2\n3...\n");
        assert_eq!(shown(SHEET), "no carrier is stranded\n...\n...\n");
        assert_eq!(shown(""), "    0    1    0\n");
    }

    /// Document 02, slip 9, by hand: the slip's floor; one beat short of it; a siding, which is left only when the other has left the cell
    /// before it; an aisle of eight, each of which waits a beat more than the one in front.
    #[test]
    fn longer_carriers() {
        let routes =
            |floor: &Floor| -> Vec<Vec<u16>> { paper::plan(floor).0.iter().map(|answer| cells(answer, floor.horizon)).collect() };
        assert_eq!(routes(&bare(3, 1, 2, 1, &[(1, 2), (0, 1)])), [[1, 2, 2], [0, 0, 1]]);
        assert_eq!(paper::plan(&bare(3, 1, 1, 1, &[(1, 2), (0, 1)])).1, 2);
        let mut siding = bare(5, 2, 8, 1, &[(0, 4), (4, 0)]);
        siding.walls = vec![5, 6, 7, 9];
        assert_eq!(routes(&siding), [[0, 1, 2, 3, 4, 4, 4, 4, 4], [4, 3, 8, 8, 8, 3, 2, 1, 0]]);
        let aisle = bare(32, 1, 31, 1, &[(24, 0), (25, 1), (26, 2), (27, 3), (28, 4), (29, 5), (30, 6), (31, 7)]);
        for (i, route) in routes(&aisle).iter().enumerate() {
            let cell = |t: usize| (24 + i).saturating_sub(t.saturating_sub(i)).max(i) as u16;
            assert_eq!(*route, (0..32).map(cell).collect::<Vec<u16>>());
        }
        assert_eq!(paper::plan(&Floor { horizon: 30, ..aisle }).1, 8);
    }

    /// Document 02, slip 7: the kinds and the beat before a change, the floor then, a carrier without a route, one that is not there.
    #[test]
    fn meetings() {
        let meeting = |sheet: &str, i, j| paper::print_meeting(sheet.as_bytes(), i, j);
        assert_eq!(meeting(SHEET, 1, 2), "same cell at beat 1\n.*.\n...\n");
        let four = "    4    2    5    1    3    1\n    0    0    1    3    0\n    3    0    1    0    0\n    0    1    1    3    1\n    1    1\n";
        assert_eq!(meeting(four, 1, 2), "change of places after beat 1\n.12.\n.#..\n");
        assert_eq!(meeting(four, 2, 1), meeting(four, 1, 2));
        assert_eq!(meeting(four, 3, 2), "same cell at beat 2\n.*..\n.#..\n");
        assert_eq!(meeting(four, 3, 1), "following after beat 0\n1...\n3#..\n");
        assert_eq!(meeting(four, 1, 3), meeting(four, 3, 1));
        let rows = "    3    2    4    1    2    0\n    0    0    1    2    0\n    0    1    1    2    1\n";
        assert_eq!(meeting(rows, 1, 2), "free\n");
        let shut = four.replace("    5    1    3    1", "    4    1    3    1");
        assert_eq!(meeting(&shut, 1, 3), "carrier 3 has no route\n");
        assert_eq!(meeting(&shut, 3, 1), "carrier 3 has no route\n");
        assert_eq!(meeting(SHEET, 1, 3), "    0    7    0\n");
        assert_eq!(meeting(SHEET, 0, 1), "    0    7    0\n");
        assert_eq!(meeting("", 0, 1), "    0    1    0\n");
    }

    #[test]
    fn floors_4_to_6_and_12() {
        let floor = paper::floor_of_sheet(SHEET.as_bytes()).unwrap();
        let record = paper::record_of(&floor);
        let mut memory = fresh_memory(&record);
        let before = memory.clone();
        assert_eq!(calls::step(&record, &[], &mut memory, 212), refused(12, 2));
        assert_eq!(calls::step(&record, &[], &mut memory, 222), refused(7, 0));
        assert_eq!(memory, before);

        assert_eq!(calls::step(&record, &[], &mut memory, 102), done(1, 0));
        let state = paper::decode(&floor, &memory).unwrap();
        assert_eq!(cells(&state.carriers[1].answer, 4), [2, 1, 0, 0, 0]);
        assert_eq!(calls::step(&record, &[], &mut memory, 101), done(1, 0));
        assert_eq!(calls::step(&record, &[], &mut memory, 212), done(2, 0));
        assert_eq!(calls::step(&record, &[], &mut memory, 102), done(1, 0));
        let state = paper::decode(&floor, &memory).unwrap();
        assert_eq!(cells(&state.carriers[1].answer, 4), [2, 5, 4, 1, 0]);
        assert_eq!((state.taken, state.is_silent(&floor)), (4, true));

        let mut short = before;
        assert_eq!(calls::run(&record, &[], &mut short, &[101, 212, 102], 9), done(0, 3));
        let other = paper::decode(&floor, &short).unwrap();
        assert_eq!(other.taken, 3);
        assert_eq!(other.carriers, state.carriers);
    }

    #[test]
    fn floors_7_to_9() {
        let record = paper::record_of(&paper::floor_of_sheet(SHEET.as_bytes()).unwrap());
        let mut memory = fresh_memory(&record);
        assert_eq!(calls::run(&record, &[], &mut memory, &[101], 0), done(1, 0));
        assert_eq!(calls::run(&record, &[], &mut memory, &[], 0), done(2, 0));
        let three = paper::record_of(&bare(4, 4, 9, 1, &[(0, 3), (4, 7), (8, 11)]));
        let mut memory = fresh_memory(&three);
        let words: Vec<u64> = [102, 101, 212, 102].map(|s| calls::step(&three, &[], &mut memory, s)).to_vec();
        assert_eq!(words, [done(1, 0), done(1, 0), done(2, 0), refused(13, 3)]);
    }

    /// Document 02, slip 3: of four carriers the second has two receivers below it, of which the smaller with a full channel is named; it is
    /// open exactly once neither is full. A carrier that is not due gets 8, full or not.
    #[test]
    fn which_thing_the_step_waits_for() {
        let floor = bare(4, 4, 9, 1, &[(0, 3), (4, 7), (8, 11), (12, 15)]);
        let four = paper::record_of(&floor);
        let mut memory = fresh_memory(&four);
        let mut step = |number: u16| {
            let open = paper::decode(&floor, &memory).unwrap().is_open(&floor, paper::step_named(number, 4).unwrap());
            let word = calls::step(&four, &[], &mut memory, number);
            assert_eq!(open, word & 255 == 0);
            word
        };
        assert_eq!([214, 234].map(&mut step), [refused(12, 4), refused(12, 4)]);
        assert_eq!([102, 102, 101, 212, 102].map(&mut step), [done(1, 0), refused(8, 0), done(1, 0), done(2, 0), refused(13, 3)]);
        assert_eq!([224, 102, 223, 102].map(&mut step), [done(2, 0), refused(13, 3), done(2, 0), done(0, 0)]);
        assert_eq!([102, 101].map(&mut step), [refused(8, 0), refused(8, 0)]);
    }

    #[test]
    fn floors_10_and_11() {
        let read = |text: &str| calls::read_sheet(text.as_bytes(), &mut [0; paper::RECORD], &mut []);
        let line = |horizon: &str, carriers: &str| {
            let sheet = SHEET.replacen("    4", horizon, 1);
            sheet.replacen("    1    2", &format!("    1{carriers}"), 1)
        };
        assert_eq!(read(&line("   63", "    2")), done(0, 0));
        assert_eq!(read(&line("   64", "    2")), refused(2, 3));
        assert_eq!(read(&line("    4", "    0")), refused(2, 5));
        assert_eq!(read(""), refused(1, 0));
    }

    /// A record that is too short to be written is told after what is wrong with the sheet.
    #[test]
    fn short_record_after_the_sheet() {
        let mut record = [7; paper::RECORD - 1];
        assert_eq!(calls::read_sheet(b"", &mut record, &mut []), refused(1, 0));
        assert_eq!(calls::read_sheet(SHEET.as_bytes(), &mut record, &mut []), refused(9, 0));
        assert_eq!(record, [7; paper::RECORD - 1]);
    }

    #[test]
    fn forms_of_a_sheet() {
        let place = |text: &str| paper::floor_of_sheet(text.as_bytes()).map_err(|r| (r.number, r.place)).err();
        assert_eq!(place(SHEET), None);
        assert_eq!(place(&SHEET[..4]), Some((1, 4)));
        assert_eq!(place(&SHEET[..30]), Some((1, 30)));
        assert_eq!(place(&SHEET[..33]), Some((1, 33)));
        assert_eq!(place(&format!("{SHEET}\n")), Some((1, 83)));
        assert_eq!(place(&SHEET.replacen("    2", "   02", 1)), Some((1, 5)));
        assert_eq!(place(&SHEET.replacen("    2", "   2 ", 1)), Some((1, 5)));
        assert_eq!(place(&SHEET.replacen("    2", "     ", 1)), Some((1, 5)));
        assert_eq!(place(&SHEET.replacen("    0\n", "    0 ", 1)), Some((1, 30)));
        assert_eq!(place(&SHEET.replacen("    3", "99999", 1)), Some((2, 1)));
        assert_eq!(place(&SHEET.replacen("    2    0    1", "99999    0    1", 1)), Some((3, 2)));
        assert_eq!(place(&SHEET.replacen("    2    0    1", "    0    0    1", 1)), Some((6, 2)));
        let walls = |text: &str| format!("    3    2    4    1    1    2\n    0    0    1    2    0\n{text}");
        assert_eq!(place(&walls("    1    0\n    0    1\n")), None);
        assert_eq!(place(&walls("    0    1\n    1    0\n")), Some((4, 3)));
        assert_eq!(place(&walls("    0    1\n    0    1\n")), Some((4, 3)));
        assert_eq!(place(&walls("    0    1\n    0    2\n")), Some((3, 3)));
        assert_eq!(place(&walls("    2    0\n    0    1\n")), Some((5, 1)));
    }

    /// Document 02, slip 10, the sheet: a count outside 1 to 4 is a bad field, told with its first column before later fields are looked at;
    /// a line has as many docks as its count; 3 and 5 look at every dock; 6 is for starts alone; 17 comes behind 6.
    #[test]
    fn docks_of_a_sheet() {
        let place = |text: &str| paper::floor_of_sheet(text.as_bytes()).map_err(|r| (r.number, r.place)).err();
        let sheet = |lines: &str| format!("    3    2    4    1    2    1\n{lines}    1    1\n");
        let with = |first: &str| place(&sheet(&format!("    0    0{first}\n    2    0    1    0    0\n")));
        assert_eq!(with("    1    2    0"), None);
        assert_eq!(with("    4    0    0    1    0    2    0    0    1"), None);
        assert_eq!(with("    0"), Some((1, 41)));
        assert_eq!(with("    5    0    0    1    0    2    0    0    1    2    1"), Some((1, 41)));
        assert_eq!(with("99999"), Some((1, 41)));
        assert_eq!(with("   01    2    0"), Some((1, 41)));
        assert_eq!(with("    5    x    0"), Some((1, 41)));
        assert_eq!(with("    1    2    0    2    1"), Some((1, 56)));
        assert_eq!(with("    2    2    0"), Some((1, 56)));
        assert_eq!(with("    2    2    0    2    x"), Some((1, 61)));
        assert_eq!(place(&sheet("")[..31]), Some((1, 31)));
        assert_eq!(place("    3    2    4    1    1    0\n    0    0    5"), Some((1, 41)));
        assert_eq!(place("    3    2    4    1    1    0\n    0    0   "), Some((1, 44)));
        assert_eq!(place("    3    2    4    1    1    0\n    0    0    2    0    0    1"), Some((1, 61)));
        assert_eq!(with("    2    2    0    3    0"), Some((3, 1)));
        assert_eq!(with("    2    2    0    0    2"), Some((3, 1)));
        assert_eq!(with("    2    2    0    1    1"), Some((5, 1)));
        assert_eq!(with("    2    2    0    2    0"), Some((17, 1)));
        assert_eq!(with("    1    0    0"), None);
        let both = |first: &str, second: &str| place(&sheet(&format!("{first}\n{second}\n")));
        assert_eq!(both("    0    0    2    2    0    2    0", "    0    0    1    2    0"), Some((6, 2)));
        assert_eq!(both("    0    0    1    2    0", "    2    0    3    0    0    2    1    0    0"), Some((17, 2)));
        assert_eq!(both("    0    0    2    2    0    2    0", "    2    0    2    1    1    0    0"), Some((5, 2)));
    }

    /// Document 02, slip 10, the record: a count outside 1 to 4 gets 3 with the carrier's item; places past the count are no part of the floor.
    #[test]
    fn docks_of_a_record() {
        let record = |counts: [u16; 2], docks: [[u16; 4]; 2]| {
            let mut record = [0; paper::RECORD];
            record[..8].copy_from_slice(&[3, 2, 4, 1, 2, 1, 0, 2]);
            record[14..16].copy_from_slice(&counts);
            record[22..30].copy_from_slice(docks.as_flattened());
            record
        };
        let told = |counts, docks| calls::check_floor(&record(counts, docks), &[4]);
        assert_eq!(told([1, 1], [[2, 9, 4, 2], [0, 0, 0, 0]]), done(0, 0));
        assert_eq!(told([4, 2], [[2, 1, 0, 5], [2, 0, 0, 9]]), done(0, 0));
        assert_eq!(told([0, 1], [[2, 1, 0, 5], [2, 0, 0, 9]]), refused(3, 1));
        assert_eq!(told([1, 5], [[2, 1, 0, 5], [2, 0, 1, 3]]), refused(3, 2));
        assert_eq!(told([1, 65535], [[2, 1, 0, 5], [2, 0, 1, 3]]), refused(3, 2));
        assert_eq!(told([4, 1], [[2, 1, 0, 6], [2, 0, 1, 3]]), refused(3, 1));
        assert_eq!(told([1, 4], [[2, 1, 0, 6], [2, 0, 1, 4]]), refused(5, 2));
        assert_eq!(told([1, 4], [[2, 1, 0, 6], [2, 0, 1, 2]]), refused(17, 2));
        assert_eq!(told([2, 0], [[2, 2, 0, 6], [2, 0, 1, 2]]), refused(3, 2));
        let mut same = record([2, 1], [[3, 3, 0, 0], [0, 0, 0, 0]]);
        assert_eq!(calls::check_floor(&same, &[4]), refused(17, 1));
        same[7] = 0;
        assert_eq!(calls::check_floor(&same, &[4]), refused(6, 2));
    }

    /// Document 02, slip 10, by hand: the nearer of two docks; the nearer one taken by a carrier above that parks there; a dock common to three
    /// carriers, which the first takes; two docks next to each other, of which the first reached is kept though the smaller one is beside it;
    /// of two docks reached in one beat the smaller route; a start that is a dock; all docks taken; a dock that is crossed later than it is
    /// reached and so is not arrived at.
    #[test]
    fn any_of_several_docks() {
        let routes = |floor: &Floor| -> Vec<Vec<u16>> {
            paper::plan(floor).0.iter().map(|answer| answer.map_or(vec![], |_| cells(answer, floor.horizon))).collect()
        };
        assert_eq!(routes(&docked(5, 1, 4, &[(2, &[0, 3])])), [[2, 3, 3, 3, 3]]);
        assert_eq!(routes(&docked(5, 1, 4, &[(3, &[3]), (2, &[3, 0])])), [vec![3, 3, 3, 3, 3], vec![2, 1, 0, 0, 0]]);
        let common = docked(3, 3, 4, &[(0, &[4]), (2, &[4, 5]), (8, &[4, 5, 6])]);
        assert_eq!(routes(&common), [[0, 1, 4, 4, 4], [2, 5, 5, 5, 5], [8, 7, 6, 6, 6]]);
        assert_eq!(routes(&docked(4, 1, 3, &[(3, &[1, 2])])), [[3, 2, 2, 2]]);
        assert_eq!(routes(&docked(4, 1, 3, &[(1, &[3, 1, 0])])), [[1, 1, 1, 1]]);
        assert_eq!(routes(&docked(3, 1, 2, &[(1, &[2, 0])])), [[1, 0, 0]]);
        assert_eq!(routes(&docked(3, 2, 3, &[(0, &[1]), (3, &[1]), (5, &[1, 4])])), [vec![0, 1, 1, 1], vec![], vec![5, 4, 4, 4]]);
        assert_eq!(routes(&docked(4, 1, 3, &[(0, &[0]), (1, &[1]), (3, &[1, 0])])), [vec![0; 4], vec![1; 4], vec![]]);
        // Carrier 1 goes along the upper row; carrier 2 may end in it only where carrier 1 has been.
        let crossed = docked(4, 2, 5, &[(0, &[3]), (5, &[2, 7])]);
        assert_eq!(routes(&crossed), [[0, 1, 2, 3, 3, 3], [5, 6, 7, 7, 7, 7]]);
        let later = docked(4, 2, 5, &[(0, &[3]), (6, &[2])]);
        assert_eq!(routes(&later), [[0, 1, 2, 3, 3, 3], [6, 5, 5, 1, 2, 2]]);
        let printed = paper::print_routes(paper::sheet_of(&common).as_bytes());
        assert_eq!(printed, "    3    0\n    1    2    0    1    4    4    4\n    2    1    2    5    5    5    5\n    3    2    8    7    6    6    6\n");
    }

    /// The arrival is the least of those to each dock alone, and there is none exactly if there is none to each; the order of docks is nothing.
    #[test]
    fn the_least_arrival_over_the_list() {
        let mut draw = Draw(10);
        let mut later = 0;
        for _ in 0..400 {
            let (w, h) = (draw.between(1, 6), draw.between(2, 6));
            let n = draw.between(1, 4.min(w * h));
            let starts = draw.different(n, w * h);
            let docks: Vec<Vec<usize>> = (0..n).map(|_| draw.docks(w * h)).collect();
            let horizon = draw.between(1, 12);
            let floor = Floor { width: w, height: h, horizon, depth: 1, starts, docks, walls: Vec::new() };
            let (answers, _) = paper::plan(&floor);
            for i in 0..n {
                let above: Vec<Route> = (0..i).map(|j| paper::occupied(&floor, j, answers[j])).collect();
                let to = |docks: &[usize]| paper::best_route(&floor, floor.starts[i], docks, &above);
                let beat = |answer: Answer| answer.map(|route| paper::arrival_of(&route, horizon));
                let alone: Vec<usize> = floor.docks[i].iter().filter_map(|&dock| beat(to(&[dock]))).collect();
                assert_eq!(beat(answers[i]), alone.iter().copied().min(), "{floor:?}");
                let mut other = floor.docks[i].clone();
                other.reverse();
                assert_eq!(to(&other), answers[i], "{floor:?}");
                later += (alone.iter().max() > alone.iter().min()) as usize;
            }
        }
        assert!(later > 100, "{later} carriers have docks of different arrivals");
    }

    #[test]
    fn lengths_and_ceiling() {
        let carriers: Vec<(usize, &[usize])> = (0..8).map(|i| (i, &[8, 9, 10, 11][..])).collect();
        let full = docked(32, 32, 63, &carriers);
        let mut record = paper::record_of(&full);
        record[5] = 1023;
        let mut out = [7; 10];
        assert_eq!(calls::needed_lengths(&record, &mut out), done(0, 0));
        assert_eq!(out, [1023, 11732, 520, 2659, 9666, 64, 54, 9, 1004, 7]);
        record[14..18].fill(1);
        assert_eq!(calls::needed_lengths(&record, &mut out), done(0, 0));
        assert_eq!(out[1], 11732 - 4 * 30);
        assert_eq!(calls::ceiling(8), done(0, 502));
        assert_eq!(calls::ceiling(1), done(0, 1));
        assert_eq!(calls::ceiling(0), refused(2, 5));
        assert_eq!(calls::ceiling(9), refused(2, 5));
    }

    /// Document 01's best route, read literally: every route is tried, conflicts are tested route against route.
    fn best_of_all(floor: &Floor, against: &[Route]) -> Answer {
        let (start, docks, h) = (floor.starts[0], &floor.docks[0], floor.horizon);
        let legal = |c: usize, d: usize| {
            let (x, y) = ((c % floor.width) as i32, (c / floor.width) as i32);
            let (u, v) = ((d % floor.width) as i32, (d / floor.width) as i32);
            (x - u).abs() + (y - v).abs() <= 1 && !floor.walls.contains(&d)
        };
        let conflict = |a: &Route, b: &Route| {
            let changes = |t: usize| a[t] == b[t + 1] && a[t + 1] == b[t];
            let enters = |a: &Route, b: &Route, t: usize| a[t + 1] != a[t] && a[t + 1] == b[t] && b[t + 1] != b[t];
            (0..=h).any(|t| a[t] == b[t]) || (0..h).any(|t| changes(t) || enters(a, b, t) || enters(b, a, t))
        };
        let mut best: Option<(usize, Route)> = None;
        let mut paths = vec![vec![start]];
        for _ in 0..h {
            let mut longer = Vec::new();
            for path in &paths {
                for d in 0..floor.cells() {
                    if legal(*path.last().unwrap(), d) {
                        longer.push([path.clone(), vec![d]].concat());
                    }
                }
            }
            paths = longer;
        }
        for path in paths {
            if !docks.contains(&path[h]) {
                continue;
            }
            let mut route = [0; 64];
            for t in 0..=h {
                route[t] = path[t] as u16;
            }
            if against.iter().any(|other| conflict(&route, other)) {
                continue;
            }
            let arrival = (0..=h).find(|&a| (a..=h).all(|t| path[t] == path[h])).unwrap();
            if best.is_none_or(|(a, r)| (arrival, route) < (a, r)) {
                best = Some((arrival, route));
            }
        }
        best.map(|(_, route)| route)
    }

    #[test]
    fn the_search_is_the_best_of_all_routes() {
        let mut draw = Draw(1);
        let mut found = 0;
        for _ in 0..3000 {
            let (w, h) = (1 + draw.below(4), 1 + draw.below(3));
            let (start, docks) = (draw.below(w * h), draw.docks(w * h));
            let mut floor = docked(w, h, 1 + draw.below(6), &[(start, &docks)]);
            for c in 0..w * h {
                if c != start && !docks.contains(&c) && draw.below(6) == 0 {
                    floor.walls.push(c);
                }
            }
            let mut against = Vec::new();
            for _ in 0..draw.below(4) {
                let mut route = [0; 64];
                let mut c = draw.below(w * h + 1);
                for t in 0..=floor.horizon {
                    route[t] = c as u16;
                    let jump = draw.below(8) == 0;
                    let next = [c.wrapping_sub(w), c.wrapping_sub(1), c, c + 1, c + w][draw.below(5)];
                    c = if jump || next > w * h { draw.below(w * h + 1) } else { next };
                }
                against.push(route);
            }
            let best = paper::best_route(&floor, start, &docks, &against);
            assert_eq!(best, best_of_all(&floor, &against), "{floor:?} {against:?}");
            found += best.is_some() as usize;
        }
        assert!((500..2900).contains(&found), "{found} of 3000 have a route");
    }

    #[test]
    fn every_schedule_ends_like_the_planner() {
        let mut draw = Draw(2);
        for round in 0..300 {
            let n = 1 + draw.below(5);
            let pairs: Vec<(usize, usize)> = (0..n).map(|i| (i, 10 + (i + round) % n)).collect();
            let mut floor = bare(5, 3, 1 + draw.below(9), 1 + draw.below(4), &pairs);
            if round % 2 == 0 {
                floor.docks.iter_mut().for_each(|docks| *docks = draw.docks(15));
            }
            let mut state = paper::fresh(n);
            let steps = paper::steps_of(n);
            while !state.is_silent(&floor) {
                let step = steps[draw.below(steps.len())].1;
                if state.is_open(&floor, step) {
                    state.take(&floor, step);
                }
                assert_eq!(paper::decode(&floor, &paper::encode(&state)), Some(state.clone()));
            }
            assert!(state.taken as usize <= (1 << (n + 1)) - n - 2);
            let answers: Vec<Answer> = state.carriers.iter().map(|c| c.answer).collect();
            assert_eq!(answers, paper::plan(&floor).0);
            let last = state.carriers.last().unwrap();
            assert!(last.views.iter().enumerate().all(|(j, v)| *v == View::Heard(answers[j])));
        }
    }

    #[test]
    fn the_other_planners_agree() {
        let mut draw = Draw(3);
        let mut routes = 0;
        for _ in 0..1500 {
            let (w, h) = (draw.between(1, 12), draw.between(1, 12));
            let cells = w * h;
            let n = draw.between(1, 8.min(cells));
            let starts = draw.different(n, cells);
            let docks: Vec<Vec<usize>> = (0..n).map(|_| draw.docks(cells)).collect();
            let chance = draw.of(&[0, 10, 40]);
            let wall = |draw: &mut Draw, c: &usize| !starts.contains(c) && !docks.concat().contains(c) && draw.percent(chance);
            let walls = (0..cells).filter(|c| wall(&mut draw, c)).collect();
            let horizon = draw.of(&[3, 7, 12, 20, 63]);
            let floor = Floor { width: w, height: h, horizon, depth: 1, starts, docks, walls };
            let (answers, failing) = paper::plan(&floor);
            routes += answers.iter().flatten().count();

            let (record, walls) = super::bits::numbers(&floor);
            let (mut memory, mut other) = (vec![7; 65 * n], vec![7; 65 * n]);
            assert_eq!(super::bits::plan(&record, &walls, &mut memory), failing, "{floor:?}");
            calls::plan(&record, &walls, &mut other);
            assert_eq!(memory, other, "{floor:?}");

            let (mut hashed, mut flat) = (super::astar::Hashed::new(&floor), super::astar::Flat::new(&floor));
            for i in 0..n {
                let (start, docks) = (floor.starts[i], &floor.docks[i]);
                let arrival = answers[i].map(|route| paper::arrival_of(&route, horizon));
                assert_eq!(hashed.search(&floor, start, docks).map(|found| found.0), arrival, "{floor:?}");
                assert_eq!(flat.search(&floor, start, docks).map(|found| found.0), arrival, "{floor:?}");
                assert_eq!(flat.best(&floor, start, docks).map(|found| found.1), answers[i], "{floor:?}");
                let route = paper::occupied(&floor, i, answers[i]);
                hashed.reserve(&floor, &route);
                flat.reserve(&floor, &route);
            }
        }
        assert!(routes > 2000, "{routes} routes");
    }
}
