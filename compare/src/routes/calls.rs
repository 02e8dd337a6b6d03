//! The calls of include/tishkolan.h on routes: their numbers, and requests for them.

#![allow(deprecated)]

use super::checker;
use crate::expected::Refusal;
use crate::lent::{self, values, Answer, Called};
use oracle::id::CellID;

#[derive(Debug, Clone, Copy, PartialEq, Eq)]
pub enum Call {
    Verdict,
    Choice,
}

pub type Request = lent::Request<Call>;

impl Called for Call {
    const BUFFERS: usize = 7;
    const COUNTED: &'static str = "verdict or choice 0, others";

    fn all() -> Vec<(u8, &'static str)> {
        vec![(1, "route_verdict"), (2, "route_choice")]
    }

    fn number(self) -> u8 {
        match self {
            Call::Verdict => 1,
            Call::Choice => 2,
        }
    }

    fn numbers(self) -> &'static [&'static str] {
        match self {
            Call::Verdict => &["rule", "count", "cost"],
            Call::Choice => &["rule", "count", "sent cost", "homing cost"],
        }
    }

    fn buffers(self) -> &'static [&'static str] {
        match self {
            Call::Verdict => &["route", "start", "goal", "flags"],
            Call::Choice => &[
                "sent",
                "sent start",
                "sent goal",
                "homing",
                "homing start",
                "homing goal",
                "flags",
            ],
        }
    }

    /// Neither call refuses, and neither changes a byte.
    fn expected(request: &Request) -> Answer {
        let number = match request.call {
            Call::Verdict => checker::verdict(&request.claim(0), &request.under()),
            Call::Choice => checker::choice(&request.claim(0), &request.claim(1), &request.under()),
        };
        Answer {
            refusal: Refusal::default(),
            values: values(&[number.into()]),
            buffers: request.buffers.clone(),
        }
    }

    fn counted(answer: &Answer) -> u32 {
        answer.values[0] as u32
    }
}

/// A list of cells, and what is claimed of it.
#[derive(Clone, Default)]
pub struct Claim {
    pub route: Vec<u8>,
    pub start: Vec<u8>,
    pub goal: Vec<u8>,
    pub cost: u64,
}

/// What a claim is judged under: a flag layer and a rule.
#[derive(Clone, Default)]
pub struct Under {
    pub table: Vec<u8>,
    pub count: u64,
    pub rule: u32,
}

impl Claim {
    /// What is true of these cells, as far as they are a route.
    pub fn of(cells: &[CellID]) -> Claim {
        let end = |cell: Option<&CellID>| cell.map_or(vec![0; 16], |cell| cell.to_bytes().to_vec());
        Claim {
            route: cells.iter().flat_map(CellID::to_bytes).collect(),
            start: end(cells.first()),
            goal: end(cells.last()),
            cost: checker::paid(cells).to_bits(),
        }
    }

    pub fn judged(&self, under: &Under) -> Request {
        Request::new(
            Call::Verdict,
            &[under.rule.into(), under.count, self.cost],
            &[&self.route, &self.start, &self.goal, &under.table],
        )
    }

    /// This one sent, the other for homing.
    pub fn or(&self, homing: &Claim, under: &Under) -> Request {
        Request::new(
            Call::Choice,
            &[under.rule.into(), under.count, self.cost, homing.cost],
            &[
                &self.route,
                &self.start,
                &self.goal,
                &homing.route,
                &homing.start,
                &homing.goal,
                &under.table,
            ],
        )
    }
}

impl Request {
    /// The first claim of a request, or the second.
    fn claim(&self, place: usize) -> Claim {
        let [route, start, goal] = [0, 1, 2].map(|part| self.buffers[3 * place + part].clone());
        Claim {
            route,
            start,
            goal,
            cost: self.numbers[2 + place],
        }
    }

    fn under(&self) -> Under {
        Under {
            table: self.buffers.last().unwrap().clone(),
            count: self.numbers[1],
            rule: self.numbers[0] as u32,
        }
    }
}
