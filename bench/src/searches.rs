//! Searches of about 10, 400, 3,000 and 13,000 expansions beside the Rust's, on an open map, on an
//! open map with a layer elsewhere, and around a wall. On these maps both find the same cost and
//! close as many cells, though the Rust breaks ties otherwise: that is tested first. Once with rooms
//! that the search just fills and once with the largest that may be named: the library wipes both
//! workspaces. What that takes stands behind the ratio, as the time of a search from a cell to itself
//! in the same workspaces, and behind it that of a plain fill of as many bytes.
//! Then what an expansion takes, of searches that a limit stops with more and more known cells.

#![allow(deprecated)]

use crate::face::*;
use crate::layers::{Both, Table};
use crate::timing::{line, steady, time, times};
use original::error::Error;
use original::id::CellID;
use original::layer::{CellFlags, Layer};
use original::path::{astar_with_limit, AvoidBlockedCost, CostFn, EuclideanCost, Path};
use std::hint::black_box;

const FREE: u32 = 0;
const AVOIDING: u32 = 1;
const MOST_ROOM: usize = 65_536;
const NO_LIMIT: u64 = 100_000;
const NO_ROOM: u32 = 10;
const LIMIT_EXCEEDED: u32 = 7;

type Point = [i32; 3];

fn cell([x, y, z]: Point) -> CellID {
    CellID::from_coords(1, 9, x, y, z).unwrap()
}

/// A wall two cells thick at x: so far from the middle on either side.
fn wall(x: i32, y_reach: i32, z_reach: i32) -> Vec<Point> {
    let mut points = Vec::new();
    for x in [x, x + 1] {
        for y in (-y_reach..=y_reach).filter(|y| (x - y) % 2 == 0) {
            for z in (-z_reach..=z_reach).filter(|z| (x - z) % 2 == 0) {
                points.push([x, y, z]);
            }
        }
    }
    points
}

/// What is searched, on both sides.
struct Map {
    start: CellID,
    goal: CellID,
    rule: u32,
    flags: Table,
    prices: Prices,
    limit: u64,
}

/// The cost function of the Rust's search under either rule.
enum Prices {
    Free(EuclideanCost),
    Avoiding(AvoidBlockedCost),
}

impl Map {
    fn new(goal: Point, rule: u32, blocked: &[Point], limit: u64) -> Map {
        let mut layer = Layer::new("");
        for &point in blocked {
            layer.set(cell(point), CellFlags::new(CellFlags::BLOCKED));
        }
        let flags = blocked
            .iter()
            .map(|&point| (Both::from(cell(point)), CellFlags::BLOCKED));
        Map {
            start: cell([0; 3]),
            goal: cell(goal),
            rule,
            flags: Table::of(flags.collect()),
            prices: match rule {
                FREE => Prices::Free(EuclideanCost),
                _ => Prices::Avoiding(AvoidBlockedCost::new(layer, 0.0)),
            },
            limit,
        }
    }

    fn rust(&self, limit: u64) -> Result<Path, Error> {
        fn search(map: &Map, prices: &impl CostFn, limit: u64) -> Result<Path, Error> {
            astar_with_limit(black_box(map.start), map.goal, prices, limit as usize)
        }
        match &self.prices {
            Prices::Free(prices) => search(self, prices, limit),
            Prices::Avoiding(prices) => search(self, prices, limit),
        }
    }

    /// The cells that the Rust closes: the smallest limit under which it answers.
    fn rust_expansions(&self, guess: u64) -> u64 {
        let answers = |limit| self.rust(limit).is_ok();
        if answers(guess) && !answers(guess - 1) {
            return guess;
        }
        let (mut low, mut high) = (0, NO_LIMIT);
        while high - low > 1 {
            let middle = (low + high) / 2;
            if answers(middle) {
                high = middle;
            } else {
                low = middle;
            }
        }
        high
    }

    fn library(&self, goal: CellID, lent: &mut Lent) -> SearchAnswer {
        let (start, goal) = (self.start.to_bytes(), goal.to_bytes());
        unsafe {
            tishkolan_astar_with_limit(
                black_box(start.as_ptr()),
                start.len(),
                goal.as_ptr(),
                goal.len(),
                self.flags.bytes.as_ptr(),
                self.flags.bytes.len(),
                self.flags.count,
                self.rule,
                self.limit,
                lent.rooms[0],
                lent.rooms[1],
                lent.known.as_mut_ptr(),
                lent.known.len(),
                lent.waiting.as_mut_ptr(),
                lent.waiting.len(),
                lent.output.as_mut_ptr(),
                lent.output.len(),
            )
        }
    }

    /// The rooms that the search just fills, for known cells and for waiting entries.
    fn rooms(&self) -> [usize; 2] {
        let mut rooms = [MOST_ROOM; 2];
        for which in 0..2 {
            let (mut low, mut high) = (0, MOST_ROOM);
            while high - low > 1 {
                rooms[which] = (low + high) / 2;
                let answer = self.library(self.goal, &mut Lent::new(rooms));
                if answer.refusal.number == NO_ROOM {
                    low = rooms[which];
                } else {
                    high = rooms[which];
                }
            }
            rooms[which] = high;
        }
        rooms
    }
}

/// What a search is lent.
struct Lent {
    rooms: [usize; 2],
    known: Vec<u8>,
    waiting: Vec<u8>,
    output: Vec<u8>,
}

impl Lent {
    fn new(rooms: [usize; 2]) -> Lent {
        Lent {
            rooms,
            known: vec![0; 44 * rooms[0] + 64],
            waiting: vec![0; 32 * rooms[1]],
            output: vec![0; 16 * 1000],
        }
    }

    fn bytes(&self) -> usize {
        self.known.len() + self.waiting.len()
    }
}

/// Both find the same cost and close as many cells, and the checker accepts the library's route.
fn same_answers(map: &Map, lent: &mut Lent) -> SearchAnswer {
    let answer = map.library(map.goal, lent);
    assert_eq!(answer.refusal.number, 0);
    let path = map.rust(NO_LIMIT).unwrap();
    assert_eq!(answer.cost, path.cost.to_bits(), "astar: the costs differ");
    assert_eq!(
        answer.expansions,
        map.rust_expansions(answer.expansions),
        "astar: the expansions differ"
    );
    let route = &lent.output[..16 * answer.cells as usize];
    let (start, goal) = (map.start.to_bytes(), map.goal.to_bytes());
    let verdict = unsafe {
        tishkolan_route_verdict(
            route.as_ptr(),
            route.len(),
            start.as_ptr(),
            start.len(),
            goal.as_ptr(),
            goal.len(),
            answer.cost,
            map.flags.bytes.as_ptr(),
            map.flags.bytes.len(),
            map.flags.count,
            map.rule,
        )
    };
    assert_eq!(verdict, 0);
    answer
}

/// One map: rooms that fit, then the largest. The Rust is timed once for both.
fn row(kind: &str, map: &Map) {
    let rooms = map.rooms();
    let mut fitting = Lent::new(rooms);
    let expansions = same_answers(map, &mut fitting).expansions;
    println!("astar, {kind}, {expansions} expansions");
    let rust = |map: &mut &Map| black_box(map.rust(map.limit)).unwrap().cost.to_bits();
    let library = |lent: &mut Lent| map.library(map.goal, lent).cost;
    let [best, best_rust] = times(1, &mut steady(fitting, library), &mut steady(map, rust));
    let largest = time(1, &mut steady(Lent::new([MOST_ROOM; 2]), library));
    for (rooms, best) in [(rooms, best), ([MOST_ROOM; 2], largest)] {
        let stay = |lent: &mut Lent| map.library(map.start, lent).cells;
        let wipe = time(1, &mut steady(Lent::new(rooms), stay));
        let fill = time(
            1,
            &mut steady(Lent::new(rooms), |lent| {
                black_box(&mut lent.known).fill(0);
                black_box(&mut lent.waiting).fill(0);
                lent.bytes() as u64
            }),
        );
        let name = format!("  rooms {} and {}", rooms[0], rooms[1]);
        println!(
            "{} {wipe:>11.2} {fill:>11.2}",
            line(&name, [best, best_rust])
        );
    }
}

/// What an expansion takes of a search that a limit stops.
fn growth(limit: u64) {
    let map = Map::new([400, 200, 100], FREE, &[], limit);
    let rooms = map.rooms();
    let mut lent = Lent::new(rooms);
    let answer = map.library(map.goal, &mut lent);
    let stopped = (answer.refusal.number, answer.expansions, answer.limit);
    assert_eq!(stopped, (LIMIT_EXCEEDED, limit + 1, limit));
    let expansions = limit as usize + 1;
    match map.rust(limit) {
        Err(Error::SearchLimitExceeded { expansions: n, .. }) if n == expansions => (),
        _ => panic!("astar: the Rust is not stopped by the limit"),
    }
    let best = times(
        expansions,
        &mut steady(lent, |lent| map.library(map.goal, lent).expansions),
        &mut steady(&map, |map| black_box(map.rust(map.limit)).is_ok().into()),
    );
    let name = format!("  {expansions} expansions, {} known cells", rooms[0]);
    println!("{}", line(&name, best));
}

pub fn rows() {
    println!("searches: of it the wiping of the workspaces; a fill of as many bytes");
    for goal in [[9, 9, 9], [17, 19, 25], [20, -24, 46], [76, 24, 8]] {
        row("open", &Map::new(goal, FREE, &[], NO_LIMIT));
        let elsewhere = wall(-60, 22, 22);
        row(
            "a layer of 1013 elsewhere",
            &Map::new(goal, AVOIDING, &elsewhere, NO_LIMIT),
        );
    }
    for (goal, wall) in [
        ([8, 6, 6], wall(5, 17, 2)),
        ([15, -7, 15], wall(10, 21, 14)),
        ([34, -2, -2], wall(10, 16, 10)),
        ([49, 3, -9], wall(12, 22, 22)),
    ] {
        let kind = format!("a wall of {}", wall.len());
        row(&kind, &Map::new(goal, AVOIDING, &wall, NO_LIMIT));
    }
    println!("astar, open, ns per expansion, stopped by a limit, rooms that fit");
    for limit in [150, 1000, 3000, 10_000, 30_000, 50_000] {
        growth(limit);
    }
}
