//! Space-time A* as textbooks have it, three times: with hash tables, with flat arrays, and with flat arrays to the paper's best route.
//! States are (beat, cell), a move or a wait costs one beat, the heuristic is the distance to the nearest dock without walls, and a reservation
//! table holds the cells of the carriers above: a cell is not entered where one of them is then or was the beat before, nor left where one
//! comes in. A dock is taken at the first beat from which it stays free.

use crate::paper::{Floor, Route};
use std::cmp::Reverse;
use std::collections::{BinaryHeap, HashMap, HashSet};

/// The cells to which one may stay or go, by rising cell number.
fn beside(floor: &Floor, c: usize) -> impl Iterator<Item = usize> {
    let (w, cells) = (floor.width, floor.cells());
    let up = (c >= w).then(|| c - w);
    let left = (c % w > 0).then(|| c - 1);
    let right = (c % w + 1 < w).then_some(c + 1);
    let down = (c + w < cells).then_some(c + w);
    [up, left, Some(c), right, down].into_iter().flatten()
}

/// The distance to the nearest of the docks.
fn distance(floor: &Floor, c: usize, docks: &[Dock]) -> usize {
    let w = floor.width;
    docks.iter().map(|dock| (c % w).abs_diff(dock.cell % w) + (c / w).abs_diff(dock.cell / w)).min().unwrap_or(0)
}

/// A dock that is free at the horizon, with the first beat from which it stays free.
struct Dock {
    cell: usize,
    held: usize,
}

/// The docks that are free at the horizon; `None` if there is none.
fn held_docks(horizon: usize, docks: &[usize], taken: impl Fn(usize, usize) -> bool) -> Option<Vec<Dock>> {
    let held = |cell: usize| (0..=horizon).rev().take_while(|&t| !taken(t, cell)).last();
    let held: Vec<Dock> = docks.iter().filter_map(|&cell| Some(Dock { cell, held: held(cell)? })).collect();
    (!held.is_empty()).then_some(held)
}

/// Whether a route may end here.
fn ends(docks: &[Dock], t: usize, c: usize) -> bool {
    docks.iter().any(|dock| dock.cell == c && dock.held <= t)
}

/// The arrival and the cells to it, with hash tables.
pub struct Hashed {
    walls: HashSet<usize>,
    cells: HashSet<(usize, usize)>,
}

impl Hashed {
    pub fn new(floor: &Floor) -> Hashed {
        Hashed { walls: floor.walls.iter().copied().collect(), cells: HashSet::new() }
    }

    pub fn reserve(&mut self, floor: &Floor, route: &[u16]) {
        for t in 0..=floor.horizon {
            self.cells.insert((t, route[t] as usize));
        }
    }

    pub fn search(&self, floor: &Floor, start: usize, docks: &[usize]) -> Option<(usize, Vec<usize>)> {
        let h = floor.horizon;
        let docks = &held_docks(h, docks, |t, c| self.cells.contains(&(t, c)))?;
        if self.cells.contains(&(0, start)) {
            return None;
        }
        let mut heap = BinaryHeap::new();
        let mut closed = HashSet::new();
        let mut parent: HashMap<(usize, usize), usize> = HashMap::new();
        heap.push(Reverse((distance(floor, start, docks), Reverse(0), start)));
        while let Some(Reverse((_, Reverse(t), c))) = heap.pop() {
            if ends(docks, t, c) {
                let mut cells = vec![c];
                for beat in (1..=t).rev() {
                    cells.push(parent[&(beat, *cells.last().unwrap())]);
                }
                cells.reverse();
                return Some((t, cells));
            }
            if t == h || !closed.insert((t, c)) {
                continue;
            }
            for d in beside(floor, c) {
                let taken = |beat: usize, cell: usize| self.cells.contains(&(beat, cell));
                let blocked = self.walls.contains(&d) || taken(t + 1, d) || d != c && (taken(t, d) || taken(t + 1, c));
                let last = t + 1 + distance(floor, d, docks);
                if !blocked && last <= h && !closed.contains(&(t + 1, d)) && !parent.contains_key(&(t + 1, d)) {
                    parent.insert((t + 1, d), c);
                    heap.push(Reverse((last, Reverse(t + 1), d)));
                }
            }
        }
        None
    }
}

/// The same with flat arrays, kept from search to search.
pub struct Flat {
    wall: Vec<bool>,
    /// Whether a carrier is in a cell at a beat.
    taken: Vec<bool>,
    /// The search that last saw a state, and the way by which it came there.
    seen: Vec<u32>,
    parent: Vec<u16>,
    leads: Vec<u32>,
    search: u32,
    heap: BinaryHeap<Reverse<(u16, Reverse<u16>, u16)>>,
    placed: Vec<(u16, u16)>,
}

impl Flat {
    pub fn new(floor: &Floor) -> Flat {
        let mut wall = vec![false; floor.cells()];
        for &c in &floor.walls {
            wall[c] = true;
        }
        let states = 64 * floor.cells();
        Flat {
            wall,
            taken: vec![false; states],
            seen: vec![0; states],
            parent: vec![0; states],
            leads: vec![0; states],
            search: 0,
            heap: BinaryHeap::new(),
            placed: Vec::new(),
        }
    }

    pub fn reserve(&mut self, floor: &Floor, route: &[u16]) {
        for t in 0..=floor.horizon {
            self.taken[t * floor.cells() + route[t] as usize] = true;
        }
    }

    fn free(&self, cells: usize, t: usize, c: usize, d: usize) -> bool {
        let taken = |beat: usize, cell: usize| self.taken[beat * cells + cell];
        !self.wall[d] && !taken(t + 1, d) && (d == c || !taken(t, d) && !taken(t + 1, c))
    }

    fn held(&self, floor: &Floor, start: usize, docks: &[usize]) -> Option<Vec<Dock>> {
        let cells = floor.cells();
        let held = held_docks(floor.horizon, docks, |t, c| self.taken[t * cells + c])?;
        (!self.taken[start]).then_some(held)
    }

    /// Puts on the open list, once each, the states after (t, c) from which a dock can still be reached by the horizon. The way back is
    /// stored only where it is asked for: `best` needs none, and is to pay for none.
    #[inline(always)]
    fn expand<const PARENTS: bool>(&mut self, floor: &Floor, docks: &[Dock], t: usize, c: usize) {
        let (h, cells) = (floor.horizon, floor.cells());
        if t == h {
            return;
        }
        for d in beside(floor, c) {
            let state = (t + 1) * cells + d;
            let last = t + 1 + distance(floor, d, docks);
            if last <= h && self.seen[state] != self.search && self.free(cells, t, c, d) {
                self.seen[state] = self.search;
                if PARENTS {
                    self.parent[state] = c as u16;
                }
                self.heap.push(Reverse((last as u16, Reverse(t as u16 + 1), d as u16)));
            }
        }
    }

    /// The arrival and some route to it: stops at the first state where a route may end.
    pub fn search(&mut self, floor: &Floor, start: usize, docks: &[usize]) -> Option<(usize, Vec<usize>)> {
        let cells = floor.cells();
        let docks = &self.held(floor, start, docks)?[..];
        self.search += 1;
        self.heap.clear();
        self.seen[start] = self.search;
        self.heap.push(Reverse((distance(floor, start, docks) as u16, Reverse(0), start as u16)));
        while let Some(Reverse((_, Reverse(t), c))) = self.heap.pop() {
            let (t, c) = (t as usize, c as usize);
            if ends(docks, t, c) {
                let mut path = vec![c];
                for beat in (1..=t).rev() {
                    path.push(self.parent[beat * cells + path.last().unwrap()] as usize);
                }
                path.reverse();
                return Some((t, path));
            }
            self.expand::<true>(floor, docks, t, c);
        }
        None
    }

    /// The paper's best route: every state that can lie on a route of least arrival is placed, then marked from the docks back, then the
    /// smallest marked cell is taken, beat for beat.
    pub fn best(&mut self, floor: &Floor, start: usize, docks: &[usize]) -> Option<(usize, Route)> {
        let (h, cells) = (floor.horizon, floor.cells());
        let docks = &self.held(floor, start, docks)?[..];
        self.search += 1;
        self.heap.clear();
        self.placed.clear();
        self.seen[start] = self.search;
        self.heap.push(Reverse((distance(floor, start, docks) as u16, Reverse(0), start as u16)));
        let mut arrival = None;
        while let Some(Reverse((last, Reverse(t), c))) = self.heap.pop() {
            if arrival.is_some_and(|arrival| last > arrival) {
                break;
            }
            self.placed.push((t, c));
            let (t, c) = (t as usize, c as usize);
            if ends(docks, t, c) {
                arrival = Some(last);
                continue;
            }
            self.expand::<false>(floor, docks, t, c);
        }
        let arrival = arrival? as usize;
        for dock in docks.iter().filter(|dock| dock.held <= arrival) {
            self.leads[arrival * cells + dock.cell] = self.search;
        }
        let mut placed = std::mem::take(&mut self.placed);
        placed.retain(|&(t, _)| (t as usize) < arrival);
        placed.sort_unstable_by_key(|&(t, _)| Reverse(t));
        for &(t, c) in &placed {
            let (t, c) = (t as usize, c as usize);
            if beside(floor, c).any(|d| self.leads[(t + 1) * cells + d] == self.search && self.free(cells, t, c, d)) {
                self.leads[t * cells + c] = self.search;
            }
        }
        self.placed = placed;
        let mut route = [0; 64];
        let mut c = start;
        route[0] = c as u16;
        for t in 0..arrival {
            let leads = |&d: &usize| self.leads[(t + 1) * cells + d] == self.search && self.free(cells, t, c, d);
            c = beside(floor, c).find(leads).expect("a state that leads on");
            route[t + 1] = c as u16;
        }
        route[arrival..=h].fill(c as u16);
        Some((arrival, route))
    }
}
