//! The benchmark: the library beside a bit-parallel planner and three forms of space-time A*, on the same floors, in one run.
//! Before anything is timed, all planners are held to the library's answers (A* that stops at its first way: to its arrivals).
//! Each figure is the best of several rounds, the contenders taking turns within a round; medians stand beside it.
//!
//!     bench [ROUNDS [PLOT.svg]]
//!
//! The file gets the plot of how a plan's time grows.

#[path = "../astar.rs"]
mod astar;
#[path = "../bits.rs"]
mod bits;
#[path = "../devices.rs"]
mod devices;
#[path = "../draw.rs"]
mod draw;
#[path = "../paper.rs"]
mod paper;

use draw::Draw;
use kalomivund::calls;
use paper::Floor;
use std::hint::black_box;
use std::time::Instant;

// ---- The floors ----

fn floor(width: usize, height: usize, horizon: usize, pairs: &[((usize, usize), (usize, usize))]) -> Floor {
    let cell = |(column, row): (usize, usize)| row * width + column;
    let starts = pairs.iter().map(|p| cell(p.0)).collect();
    let docks = pairs.iter().map(|p| vec![cell(p.1)]).collect();
    Floor { width, height, horizon, depth: 2, starts, docks, walls: Vec::new() }
}

/// Eight carriers through the middle of a square, nose to nose in two rows and two columns.
fn crossing_of(side: usize) -> Floor {
    let (last, low, high) = (side - 1, side / 2 - 1, side / 2);
    let pairs = [
        ((0, low), (last, low)),
        ((last, low), (0, low)),
        ((low, 0), (low, last)),
        ((low, last), (low, 0)),
        ((0, high), (last, high)),
        ((last, high), (0, high)),
        ((high, 0), (high, last)),
        ((high, last), (high, 0)),
    ];
    floor(side, side, 63, &pairs)
}

fn crossing() -> Floor {
    crossing_of(32)
}

/// Eight carriers from corner to corner, the longest ways that the horizon allows.
fn corners() -> Floor {
    let pairs = [
        ((0, 0), (31, 31)),
        ((31, 31), (0, 0)),
        ((31, 0), (0, 31)),
        ((0, 31), (31, 0)),
        ((1, 0), (31, 30)),
        ((30, 31), (0, 1)),
        ((31, 1), (1, 31)),
        ((0, 30), (30, 0)),
    ];
    floor(32, 32, 63, &pairs)
}

/// The same ways, each to any of four docks: its own, the one beside it, and those two across from where they lie.
fn four_docks(like: Floor) -> Floor {
    let (width, height) = (like.width, like.height);
    let all = |&dock: &usize| {
        let beside = if dock % width + 1 < width { dock + 1 } else { dock - 1 };
        let across = |c: usize| c % width + (height - 1 - c / width) * width;
        vec![dock, beside, across(dock), across(beside)]
    };
    let docks: Vec<Vec<usize>> = like.docks.iter().map(|docks| all(&docks[0])).collect();
    let walls = like.walls.iter().copied().filter(|c| !docks.concat().contains(c)).collect();
    Floor { docks, walls, ..like }
}

/// One common list of four docks in the middle for eight carriers that come from the rim; the last four find them taken, and have none.
fn common_docks() -> Floor {
    let middle = [15 * 32 + 15, 15 * 32 + 16, 16 * 32 + 15, 16 * 32 + 16];
    let mut floor = crossing();
    floor.docks = vec![middle.to_vec(); 8];
    floor
}

/// So many walls at random; starts and docks lie in the largest part that hangs together.
fn random_walls_of(count: usize) -> Floor {
    let mut draw = Draw(512);
    let mut walls = draw.different(count, 1024);
    walls.sort_unstable();
    let mut part = vec![usize::MAX; 1024];
    let mut largest: Vec<usize> = Vec::new();
    for first in 0..1024 {
        if part[first] != usize::MAX || walls.contains(&first) {
            continue;
        }
        let mut cells = vec![first];
        part[first] = first;
        let mut next = 0;
        while next < cells.len() {
            let c = cells[next];
            let near = [(c >= 32, c.wrapping_sub(32)), (c % 32 > 0, c.wrapping_sub(1)), (c % 32 < 31, c + 1), (c < 992, c + 32)];
            for (inside, d) in near {
                if inside && part[d] == usize::MAX && !walls.contains(&d) {
                    part[d] = first;
                    cells.push(d);
                }
            }
            next += 1;
        }
        if cells.len() > largest.len() {
            largest = cells;
        }
    }
    let of = |draw: &mut Draw| draw.different(8, largest.len()).iter().map(|&k| largest[k]).collect::<Vec<usize>>();
    let starts = of(&mut draw);
    let docks = of(&mut draw).into_iter().map(|dock| vec![dock]).collect();
    Floor { width: 32, height: 32, horizon: 63, depth: 2, starts, docks, walls }
}

fn random_walls() -> Floor {
    random_walls_of(512)
}

/// A corridor of one row with sidings on both sides; carriers come from both ends.
fn corridor() -> Floor {
    let pairs = [
        ((0, 1), (31, 1)),
        ((31, 1), (0, 1)),
        ((1, 1), (30, 1)),
        ((30, 1), (1, 1)),
        ((2, 1), (29, 1)),
        ((29, 1), (2, 1)),
        ((3, 1), (28, 1)),
        ((28, 1), (3, 1)),
    ];
    let mut floor = floor(32, 3, 63, &pairs);
    let wall = |c: &usize| c / 32 == 0 && c % 32 % 4 != 2 || c / 32 == 2 && c % 32 % 4 != 0;
    floor.walls = (0..96).filter(wall).collect();
    floor
}

/// A wall from top to bottom between starts and docks: every carrier has none.
fn all_none() -> Floor {
    let pairs: Vec<_> = (0..8).map(|i| ((i, 4 * i), (31 - i, 4 * i))).collect();
    let mut floor = floor(32, 32, 63, &pairs);
    floor.walls = (0..32).map(|row| row * 32 + 16).collect();
    floor
}

fn floors() -> Vec<(&'static str, Floor)> {
    let mut first = floor(3, 2, 4, &[((0, 0), (2, 0)), ((2, 0), (0, 0))]);
    first.depth = 1;
    vec![
        ("document 01", first),
        ("crossing", crossing()),
        ("corner to corner", corners()),
        ("512 random walls", random_walls()),
        ("corridor, sidings", corridor()),
        ("all none", all_none()),
        ("crossing, four docks", four_docks(crossing())),
        ("corners, four docks", four_docks(corners())),
        ("512 walls, four docks", four_docks(random_walls())),
        ("four common docks", common_docks()),
    ]
}

// ---- Time ----

/// Nanoseconds of one call: the best round and the median.
#[derive(Clone, Copy)]
struct Time {
    best: f64,
    median: f64,
}

/// Times contenders in turns: each round runs each of them for about two milliseconds.
fn measure(rounds: usize, contenders: &mut [&mut dyn FnMut()]) -> Vec<Time> {
    let mut counts = Vec::new();
    for call in contenders.iter_mut() {
        let (begin, mut warm) = (Instant::now(), 0u32);
        while begin.elapsed().as_micros() < 5_000 || warm < 3 {
            call();
            warm += 1;
        }
        let one = begin.elapsed().as_nanos() as f64 / warm as f64;
        counts.push((2_000_000.0 / one).clamp(1.0, 1e6) as u32);
    }
    let mut times = vec![Vec::new(); contenders.len()];
    for _ in 0..rounds {
        for (k, call) in contenders.iter_mut().enumerate() {
            let begin = Instant::now();
            for _ in 0..counts[k] {
                call();
            }
            times[k].push(begin.elapsed().as_nanos() as f64 / counts[k] as f64);
        }
    }
    times.into_iter().map(time_of).collect()
}

fn time_of(mut times: Vec<f64>) -> Time {
    times.sort_by(f64::total_cmp);
    Time { best: times[0], median: times[times.len() / 2] }
}

fn micro(time: Time) -> String {
    format!("{:.2} ({:.2})", time.best / 1000.0, time.median / 1000.0)
}

fn done(word: u64, what: &str) -> u64 {
    if word & 255 != 0 {
        println!("{what} refused: {word:#x}");
        std::process::exit(1);
    }
    word >> 16
}

// ---- One sequential plan ----

/// A floor as it is lent, with the library's answers to it.
struct Lent {
    name: &'static str,
    floor: Floor,
    record: [u16; paper::RECORD],
    walls: Vec<u16>,
    answers: Vec<u16>,
    failing: u64,
}

impl Lent {
    fn of(name: &'static str, floor: Floor) -> Lent {
        let (record, walls) = bits::numbers(&floor);
        let mut answers = vec![0; 65 * floor.carriers()];
        let failing = done(calls::plan(&record, &walls, &mut answers), "plan");
        Lent { name, floor, record, walls, answers, failing }
    }

    /// The library's route of a carrier.
    fn route(&self, i: usize) -> Option<&[u16]> {
        let record = &self.answers[65 * i..65 * i + 65];
        (record[0] == 2).then_some(&record[1..])
    }

    /// Where the carrier is for those below it.
    fn occupied(&self, i: usize) -> paper::Route {
        paper::occupied(&self.floor, i, self.route(i).map(|route| route.try_into().unwrap()))
    }

    fn arrival(&self, i: usize) -> Option<usize> {
        self.route(i).map(|route| paper::arrival_of(route.try_into().unwrap(), self.floor.horizon))
    }

    /// A* with hash tables, carrier for carrier; each is asked against the library's routes above it, so that all answer one question.
    fn hashed(&self) -> Vec<Option<usize>> {
        let mut table = astar::Hashed::new(&self.floor);
        (0..self.floor.carriers())
            .map(|i| {
                let found = table.search(&self.floor, self.floor.starts[i], &self.floor.docks[i]);
                table.reserve(&self.floor, &self.occupied(i));
                found.map(|(arrival, _)| arrival)
            })
            .collect()
    }

    fn flat(&self) -> Vec<Option<usize>> {
        let mut table = astar::Flat::new(&self.floor);
        (0..self.floor.carriers())
            .map(|i| {
                let found = table.search(&self.floor, self.floor.starts[i], &self.floor.docks[i]);
                table.reserve(&self.floor, &self.occupied(i));
                found.map(|(arrival, _)| arrival)
            })
            .collect()
    }

    /// A* to the paper's best route, which is then the next carrier's reservation.
    fn best(&self) -> Vec<u16> {
        let mut table = astar::Flat::new(&self.floor);
        let mut answers = Vec::with_capacity(self.answers.len());
        for i in 0..self.floor.carriers() {
            let found = table.best(&self.floor, self.floor.starts[i], &self.floor.docks[i]).map(|(_, route)| route);
            table.reserve(&self.floor, &paper::occupied(&self.floor, i, found));
            answers.push(if found.is_some() { 2 } else { 1 });
            answers.extend(found.unwrap_or([0; 64]));
        }
        answers
    }

    /// All planners agree with the library.
    fn check(&self) {
        let fault = |who: &str| {
            println!("{who} and the library differ on the floor '{}'", self.name);
            std::process::exit(1);
        };
        let mut answers = vec![7; self.answers.len()];
        let failing = bits::plan(&self.record, &self.walls, &mut answers);
        if answers != self.answers || failing as u64 != self.failing {
            fault("bit-parallel Rust");
        }
        let arrivals: Vec<Option<usize>> = (0..self.floor.carriers()).map(|i| self.arrival(i)).collect();
        if self.hashed() != arrivals {
            fault("A* with hash tables");
        }
        if self.flat() != arrivals {
            fault("A* with arrays");
        }
        if self.best() != self.answers {
            fault("A* to the best route");
        }
    }
}

fn plans(all: &[Lent], rounds: usize) {
    println!("One sequential plan, microseconds: best (median)\n");
    let head = [
        "floor",
        "carriers, walls, none",
        "library",
        "bit-parallel Rust",
        "A*, hash tables",
        "A*, arrays",
        "A*, arrays, best route",
        "library / bit-parallel",
        "A* hash / library",
        "A* arrays / library",
        "A* best / library",
    ];
    println!("| {} |", head.join(" | "));
    println!("|---|---|---|---|---|---|---|---|---|---|---|");
    let mut last = String::new();
    for lent in all {
        let mut ours = lent.answers.clone();
        let mut theirs = lent.answers.clone();
        let times = measure(
            rounds,
            &mut [
                &mut || {
                    black_box(calls::plan(black_box(&lent.record), black_box(&lent.walls), &mut ours));
                },
                &mut || {
                    black_box(bits::plan(black_box(&lent.record), black_box(&lent.walls), &mut theirs));
                },
                &mut || {
                    black_box(lent.hashed());
                },
                &mut || {
                    black_box(lent.flat());
                },
                &mut || {
                    black_box(lent.best());
                },
            ],
        );
        let none = (0..lent.floor.carriers()).filter(|&i| lent.route(i).is_none()).count();
        let ratio = |a: usize, b: usize| times[a].best / times[b].best;
        println!(
            "| {} | {}, {}, {none} | {} | {} | {} | {} | {} | {:.2} | {:.1} | {:.1} | {:.1} |",
            lent.name,
            lent.floor.carriers(),
            lent.walls.len(),
            micro(times[0]),
            micro(times[1]),
            micro(times[2]),
            micro(times[3]),
            micro(times[4]),
            ratio(0, 1),
            ratio(2, 0),
            ratio(3, 0),
            ratio(4, 0)
        );
        if lent.name == "crossing" {
            last = format!(
                "Crossing: library / bit-parallel Rust {:.2} (wanted: at most 1.2), A* with hash tables / library {:.1} (wanted: at least 20).",
                ratio(0, 1),
                ratio(2, 0)
            );
        }
    }
    println!("\n{last}");
}

// ---- What the search's devices buy ----

/// The search in Rust with all its devices, and its time without each of them in parts of that.
fn bought(all: &[Lent], rounds: usize) {
    println!("\nThe same search in Rust: microseconds with all devices, and the time without one of them / with all\n");
    let names: Vec<&str> = devices::DEVICES.iter().map(|(_, name)| *name).collect();
    println!("| floor | all | {} |\n|---|---{}|", names.join(" | "), "|---".repeat(names.len()));
    for lent in all {
        let forms: Vec<_> = std::iter::once(None).chain(devices::DEVICES.map(|(device, _)| Some(device))).collect();
        let mut answers = vec![vec![7; lent.answers.len()]; forms.len()];
        let mut calls: Vec<Box<dyn FnMut()>> = Vec::new();
        for (&form, answers) in forms.iter().zip(&mut answers) {
            devices::plan(&lent.record, &lent.walls, answers, form);
            if *answers != lent.answers {
                println!("the search in Rust and the library differ on the floor '{}'", lent.name);
                std::process::exit(1);
            }
            calls.push(Box::new(move || devices::plan(black_box(&lent.record), black_box(&lent.walls), black_box(answers), form)));
        }
        let mut contenders: Vec<&mut dyn FnMut()> = calls.iter_mut().map(|call| &mut **call as &mut dyn FnMut()).collect();
        let times = measure(rounds, &mut contenders);
        let parts: Vec<String> = times[1..].iter().map(|time| format!("{:.2}", time.best / times[0].best)).collect();
        println!("| {} | {} | {} |", lent.name, micro(times[0]), parts.join(" | "));
    }
}

// ---- How a plan's time grows ----

/// What grows, and the floor at each of its values.
struct Growth {
    what: &'static str,
    floors: Vec<(usize, Floor)>,
}

/// One thing grows at a time; the rest is eight carriers with one dock each, horizon 63, no walls, 32 by 32 cells where nothing else is said.
fn growths() -> Vec<Growth> {
    let square = |side: usize| (side * side, crossing_of(side));
    let low = |height: usize| {
        let pairs: Vec<_> = (0..8).map(|i| ((i, i % height), (31 - i, (i + 1) % height))).collect();
        (height, floor(32, height, 63, &pairs))
    };
    let horizon = |horizon: usize| (horizon, Floor { horizon, ..crossing_of(8) });
    let carriers = |n: usize| {
        let mut floor = crossing();
        floor.starts.truncate(n);
        floor.docks.truncate(n);
        (n, floor)
    };
    let docks = |count: usize| {
        let mut floor = four_docks(crossing());
        floor.docks.iter_mut().for_each(|docks| docks.truncate(count));
        (count, floor)
    };
    vec![
        Growth { what: "cells (a square)", floors: [4, 8, 12, 16, 20, 24, 28, 32].map(square).into() },
        Growth { what: "rows of 32 cells", floors: [2, 4, 8, 9, 16, 24, 32].map(low).into() },
        Growth { what: "horizon (8 by 8 cells)", floors: [16, 24, 32, 40, 48, 56, 63].map(horizon).into() },
        Growth { what: "carriers", floors: [1, 2, 3, 4, 5, 6, 7, 8].map(carriers).into() },
        Growth { what: "walls (at random)", floors: [0, 64, 128, 256, 384, 512, 640].map(|n| (n, random_walls_of(n))).into() },
        Growth { what: "docks a carrier", floors: [1, 2, 3, 4].map(docks).into() },
    ]
}

/// Value, microseconds of the library, microseconds of the competitor.
type Point = (usize, f64, f64);

/// Times the floors of a growth, and prints them as a table.
fn grown(growth: &Growth, rounds: usize) -> Vec<Point> {
    println!("| {} | library | bit-parallel Rust | library / bit-parallel |\n|---|---|---|---|", growth.what);
    let mut points = Vec::new();
    for (value, floor) in &growth.floors {
        let (record, walls) = bits::numbers(floor);
        let (mut ours, mut theirs) = (vec![0; 65 * floor.carriers()], vec![1; 65 * floor.carriers()]);
        let times = measure(
            rounds,
            &mut [
                &mut || {
                    black_box(calls::plan(black_box(&record), black_box(&walls), &mut ours));
                },
                &mut || {
                    black_box(bits::plan(black_box(&record), black_box(&walls), &mut theirs));
                },
            ],
        );
        if ours != theirs {
            println!("bit-parallel Rust and the library differ where {} is {value}", growth.what);
            std::process::exit(1);
        }
        println!("| {value} | {} | {} | {:.2} |", micro(times[0]), micro(times[1]), times[0].best / times[1].best);
        points.push((*value, times[0].best / 1000.0, times[1].best / 1000.0));
    }
    println!();
    points
}

/// A panel of the plot at a place: both lines over the values, from 0 on.
fn panel(what: &str, points: &[Point], x: f64, y: f64) -> String {
    let (width, height) = (240.0, 150.0);
    let most = points.last().unwrap().0 as f64;
    let top = points.iter().map(|p| p.1.max(p.2)).fold(0.0, f64::max).ceil();
    let across = |value: usize| x + width * value as f64 / most;
    let up = |time: f64| y + height - height * time / top;
    let line = |pick: fn(&Point) -> f64, colour: &str, dash: &str| {
        let places: Vec<String> = points.iter().map(|p| format!("{:.1},{:.1}", across(p.0), up(pick(p)))).collect();
        format!("<polyline points=\"{}\" fill=\"none\" stroke=\"{colour}\" stroke-width=\"2\"{dash}/>\n", places.join(" "))
    };
    let mut svg = format!("<path d=\"M{x} {y}v{height}h{width}\" fill=\"none\" stroke=\"#555\"/>\n");
    svg += &line(|p| p.2, "#d55e00", " stroke-dasharray=\"6 3\"");
    svg += &line(|p| p.1, "#0072b2", "");
    svg += &format!("<text x=\"{x}\" y=\"{}\">{what}</text>\n", y - 8.0);
    svg += &format!("<text x=\"{}\" y=\"{}\" text-anchor=\"end\">{top} µs</text>\n", x - 4.0, y + 10.0);
    svg + &format!("<text x=\"{}\" y=\"{}\" text-anchor=\"end\">{most}</text>\n", x + width, y + height + 16.0)
}

/// Prints how a plan's time grows, and the plot of it.
fn growth(rounds: usize) -> String {
    println!("\nHow the time of one sequential plan grows, microseconds: best (median)\n");
    let mut svg = String::from(
        "<svg xmlns=\"http://www.w3.org/2000/svg\" viewBox=\"0 0 940 500\" font-family=\"sans-serif\" font-size=\"13\">\n\
         <title>How the time of one sequential plan grows</title>\n<rect width=\"940\" height=\"500\" fill=\"#fff\"/>\n\
         <text x=\"60\" y=\"24\"><tspan fill=\"#0072b2\">library</tspan>, <tspan fill=\"#d55e00\">bit-parallel Rust (dashed)</tspan></text>\n",
    );
    for (k, growth) in growths().iter().enumerate() {
        let points = grown(growth, rounds);
        svg += &panel(growth.what, &points, 60.0 + 310.0 * (k % 3) as f64, 70.0 + 230.0 * (k / 3) as f64);
    }
    svg + "</svg>\n"
}

// ---- The machine ----

/// The steps that bring n carriers to silence in the fewest steps: each plans, and its message is delivered to all below.
fn in_turn(n: usize) -> Vec<u16> {
    let mut steps = Vec::new();
    for i in 1..=n as u16 {
        steps.push(kalomivund::Step::Plan(i).number());
        steps.extend((i + 1..=n as u16).map(|below| kalomivund::Step::Deliver { from: i, to: below }.number()));
    }
    steps
}

/// Every step again and again, the lowest carrier first: many plans are made in vain.
fn in_vain(n: usize) -> Vec<u16> {
    let mut round: Vec<u16> = paper::steps_of(n).iter().map(|(number, _)| *number).collect();
    round.reverse();
    (0..(1 << n)).flat_map(|_| round.clone()).collect()
}

/// Runs the list from the fresh state by the paper and by the library; the steps taken.
fn checked_run(lent: &Lent, state: &mut [u16], steps: &[u16]) -> u64 {
    let mut other = state.to_vec();
    let words = [calls::fresh(&lent.record, &lent.walls, state), calls::run(&lent.record, &lent.walls, state, steps, 65535)];
    let paper = [
        paper::calls::fresh(&lent.record, &lent.walls, &mut other),
        paper::calls::run(&lent.record, &lent.walls, &mut other, steps, 65535),
    ];
    if words != paper || *state != other[..] || words[1] >> 8 & 255 != 0 {
        println!("a run to silence on '{}' differs from the paper's", lent.name);
        std::process::exit(1);
    }
    words[1] >> 16
}

fn machine(all: &[Lent], rounds: usize) {
    println!("\nThe machine, microseconds: best (median)\n");
    println!(
        "| floor | fresh | a plan step | a delivery | run to silence, in turn (steps) | run to silence, lowest first (steps) |"
    );
    println!("|---|---|---|---|---|---|");
    for lent in all {
        let n = lent.floor.carriers();
        let mut state = vec![0; paper::state_length(n)];
        let (few, many) = (in_turn(n), in_vain(n));
        let taken = [checked_run(lent, &mut state, &few), checked_run(lent, &mut state, &many)];

        // Single steps, each timed alone; a round's figure is the mean of its kind.
        let (mut plans, mut deliveries) = (Vec::new(), Vec::new());
        for _ in 0..4 * rounds {
            done(calls::fresh(&lent.record, &lent.walls, &mut state), "fresh");
            let mut sums = [(0.0, 0.0); 2];
            for &step in &few {
                let begin = Instant::now();
                let word = calls::step(&lent.record, &lent.walls, &mut state, black_box(step));
                let time = begin.elapsed().as_nanos() as f64;
                done(word, "step");
                let kind = &mut sums[(step >= 200) as usize];
                *kind = (kind.0 + time, kind.1 + 1.0);
            }
            plans.push(sums[0].0 / sums[0].1);
            deliveries.push(sums[1].0 / sums[1].1);
        }

        let mut states = [state.clone(), state.clone(), state];
        let [a, b, c] = &mut states;
        let times = measure(
            rounds,
            &mut [
                &mut || {
                    black_box(calls::fresh(black_box(&lent.record), &lent.walls, a));
                },
                &mut || {
                    calls::fresh(black_box(&lent.record), &lent.walls, b);
                    black_box(calls::run(&lent.record, &lent.walls, b, &few, 65535));
                },
                &mut || {
                    calls::fresh(black_box(&lent.record), &lent.walls, c);
                    black_box(calls::run(&lent.record, &lent.walls, c, &many, 65535));
                },
            ],
        );
        println!(
            "| {} | {} | {} | {} | {} ({} steps) | {} ({} steps) |",
            lent.name,
            micro(times[0]),
            micro(time_of(plans)),
            micro(time_of(deliveries)),
            micro(times[1]),
            taken[0],
            micro(times[2]),
            taken[1]
        );
    }
    println!("\nRuns are timed with the fresh state before them.");
}

// ---- Sheets ----

/// A floor of a thousand walls, and four docks for each of eight carriers.
fn thousand_walls() -> Floor {
    let docks = vec![vec![0, 1, 2, 3], vec![4, 5, 6, 7], vec![8, 9, 10, 11], vec![12, 13, 14, 15]];
    let starts = vec![16, 17, 18, 19, 20, 21, 22, 23];
    let walls = (24..1024).collect();
    Floor { width: 32, height: 32, horizon: 63, depth: 4, starts, docks: [docks.clone(), docks].concat(), walls }
}

fn sheets(all: &[Lent], rounds: usize) {
    println!("\nSheets, microseconds: best (median)\n");
    println!("| floor | bytes | read | write | check | print routes | paper.rs reads | paper.rs reads / library reads |");
    println!("|---|---|---|---|---|---|---|---|");
    let walled = Lent::of("1,000 walls, four docks", thousand_walls());
    for lent in all.iter().chain([&walled]) {
        let text = paper::sheet_of(&lent.floor).into_bytes();
        let mut record = [0; paper::RECORD];
        let mut walls = vec![0; kalomivund::MOST_WALLS];
        let mut out = vec![0; kalomivund::MOST_SHEET];
        let mut printed = vec![0; kalomivund::MOST_TEXT];
        done(calls::read_sheet(&text, &mut record, &mut walls), "read_sheet");
        let written = done(calls::write_sheet(&record, &walls, &mut out), "write_sheet") as usize;
        let length = done(calls::print_routes(&text, &mut printed), "print_routes") as usize;
        if record != lent.record || out[..written] != text || printed[..length] != *paper::print_routes(&text).as_bytes() {
            println!("reading, writing or printing of '{}' differs from the paper's", lent.name);
            std::process::exit(1);
        }
        let times = measure(
            rounds,
            &mut [
                &mut || {
                    black_box(calls::read_sheet(black_box(&text), &mut record, &mut walls));
                },
                &mut || {
                    black_box(calls::write_sheet(black_box(&lent.record), &lent.walls, &mut out));
                },
                &mut || {
                    black_box(calls::check_floor(black_box(&lent.record), &lent.walls));
                },
                &mut || {
                    black_box(calls::print_routes(black_box(&text), &mut printed));
                },
                &mut || {
                    black_box(paper::floor_of_sheet(black_box(&text)).is_ok());
                },
            ],
        );
        println!(
            "| {} | {} | {} | {} | {} | {} | {} | {:.1} |",
            lent.name,
            text.len(),
            micro(times[0]),
            micro(times[1]),
            micro(times[2]),
            micro(times[3]),
            micro(times[4]),
            times[4].best / times[0].best
        );
    }
    println!("\nWanted: reading takes the library no longer than paper.rs, so that the last figure is at least 1.");
}

// ---- A record that came by radio ----

/// The check of carrier 1's answer, which looks at every beat of a route, beside the check of the floor that it begins with.
fn records(all: &[Lent], rounds: usize) {
    println!("\nRecords, microseconds: best (median)\n");
    println!("| floor | check of a record | of it the check of the floor | conflict test of two routes | arrival |");
    println!("|---|---|---|---|---|");
    let walled = Lent::of("1,000 walls, four docks", thousand_walls());
    for lent in all.iter().chain([&walled]) {
        let (own, other) = (&lent.answers[..65], &lent.answers[lent.answers.len() - 65..]);
        let word = calls::check_record(&lent.record, &lent.walls, 1, own);
        if word != paper::calls::check_record(&lent.record, &lent.walls, 1, own) {
            println!("the check of a record of '{}' differs from the paper's", lent.name);
            std::process::exit(1);
        }
        let horizon = lent.floor.horizon as u16;
        let times = measure(
            rounds,
            &mut [
                &mut || {
                    black_box(calls::check_record(black_box(&lent.record), &lent.walls, 1, own));
                },
                &mut || {
                    black_box(calls::check_floor(black_box(&lent.record), &lent.walls));
                },
                &mut || {
                    black_box(calls::conflict(black_box(&own[1..]), &other[1..], horizon));
                },
                &mut || {
                    black_box(calls::arrival(black_box(&own[1..]), horizon));
                },
            ],
        );
        println!("| {} | {} | {} | {} | {} |", lent.name, micro(times[0]), micro(times[1]), micro(times[2]), micro(times[3]));
    }
}

// ---- Every run of a small floor ----

/// Three carriers far from each other, whose answers stay, and three of which the first two come nose to nose.
fn small_floors() -> Vec<(&'static str, usize, Floor)> {
    let apart = floor(32, 32, 63, &[((0, 0), (31, 0)), ((0, 15), (31, 15)), ((0, 31), (31, 31))]);
    let meeting = floor(32, 32, 63, &[((0, 15), (31, 15)), ((31, 15), (0, 15)), ((0, 31), (31, 31))]);
    [("answers stay", apart), ("carrier 2 changes its answer", meeting)]
        .into_iter()
        .flat_map(|(name, floor)| [1, 2, 4].map(|depth| (name, depth, Floor { depth, ..floor.clone() })))
        .collect()
}

/// A call finds the run of one rank and counts them all, so every rank costs a walk over all runs.
fn listing(rounds: usize) {
    println!("\nEvery run of a small floor, microseconds: best (median)\n");
    println!("| floor, 32 by 32, horizon 63, 3 carriers | depth | runs | the run of a rank | a run of the walk, nanoseconds | all ranks, one call each, seconds |");
    println!("|---|---|---|---|---|---|");
    for (name, depth, floor) in small_floors() {
        let (record, walls) = bits::numbers(&floor);
        let mut report = [0; 22];
        let total = done(calls::run_of_rank(&record, &walls, 0, &mut report), "run_of_rank");
        let times = measure(
            rounds,
            &mut [&mut || {
                black_box(calls::run_of_rank(black_box(&record), &walls, total - 1, &mut report));
            }],
        );
        println!(
            "| {name} | {depth} | {total} | {} | {:.0} | {:.2} |",
            micro(times[0]),
            times[0].best / total as f64,
            times[0].best * total as f64 / 1e9
        );
    }
}

fn main() {
    let rounds = std::env::args().nth(1).map_or(15, |word| word.parse().expect("a number of rounds"));
    let all: Vec<Lent> = floors().into_iter().map(|(name, floor)| Lent::of(name, floor)).collect();
    for lent in &all {
        lent.check();
    }
    let cores = std::thread::available_parallelism().map_or(0, |n| n.get());
    println!("All planners agree on {} floors. {cores} cores, one used; {rounds} rounds.\n", all.len());
    plans(&all, rounds);
    bought(&all, rounds);
    let plot = growth(rounds);
    if let Some(file) = std::env::args().nth(2) {
        std::fs::write(file, plot).expect("the plot is written");
    }
    machine(&all, rounds);
    sheets(&all, rounds);
    records(&all, rounds);
    listing(rounds);
}
