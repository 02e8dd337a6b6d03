//! A request of calls.rs on its way to the program of answer.c, and what came back held to what
//! the oracle says.

use crate::calls::{hex, Call, Request};
use crate::expected::{by_the_ranges, expected, Answer, Refusal, BAD_LIST, NO_ROOM};
use crate::side_by_side::Asked;

/// All that the library said to one request.
struct Said {
    refusal: Refusal,
    values: [i64; 8],
    /// Whether a lent cell was written to.
    changed: bool,
    /// The buffer after the call, with the 16 bytes on either side of it.
    after: Vec<u8>,
}

/// Takes what was said off the front.
fn take(request: &Request, from: &mut &[u8]) -> Said {
    let (head, tail) = from.split_at(88);
    let word = |at: usize| u32::from_le_bytes(head[at..at + 4].try_into().unwrap());
    let long = |at: usize| i64::from_le_bytes(head[at..at + 8].try_into().unwrap());
    let (after, rest) = tail.split_at(request.before().len());
    *from = rest;
    Said {
        refusal: Refusal::read(head),
        changed: word(20) != 0,
        values: [0, 1, 2, 3, 4, 5, 6, 7].map(|place| long(24 + 8 * place)),
        after: after.to_vec(),
    }
}

impl Asked for Request {
    type Wanted = Answer;

    const COUNTED: &'static str = "answered, refused";

    fn calls() -> Vec<(u8, &'static str)> {
        Call::ALL.map(|call| (call.number(), call.name())).to_vec()
    }

    fn number(&self) -> u8 {
        self.call.number()
    }

    fn send(&self, batch: &mut Vec<u8>) {
        let (first, second) = (self.first.slice(), self.second.slice());
        batch.extend([
            self.call.number(),
            first.len() as u8,
            second.len() as u8,
            self.fill,
        ]);
        batch.extend(self.room.to_le_bytes());
        batch.extend([self.null.into(), 0]);
        batch.extend(self.numbers.iter().flat_map(|number| number.to_le_bytes()));
        batch.extend(first);
        batch.extend(second);
    }

    fn wanted(&self) -> Answer {
        expected(self)
    }

    fn counted(wanted: &Answer) -> u32 {
        wanted.refusal.number
    }

    fn judge(&self, wanted: &Answer, said: &mut &[u8]) -> Vec<String> {
        let said = take(self, said);
        let mut after = self.before();
        after
            .iter_mut()
            .skip(16)
            .zip(&wanted.front)
            .for_each(|(byte, front)| *byte = *front);

        let mut wrong = Vec::new();
        if said.refusal != wanted.refusal {
            wrong.push(format!(
                "said {:?}, wanted {:?}",
                said.refusal, wanted.refusal
            ));
        }
        if said.values != wanted.values {
            wrong.push(format!(
                "gave {:X?}, wanted {:X?}",
                said.values, wanted.values
            ));
        }
        if said.changed {
            wrong.push("wrote to a lent cell".to_string());
        }
        if said.after != after {
            let place = said
                .after
                .iter()
                .zip(&after)
                .position(|(one, other)| one != other)
                .unwrap();
            wrong.push(format!(
                "left at byte {} of the buffer {}, wanted {}",
                place as i64 - 16,
                hex(&said.after[place..(place + 16).min(after.len())]),
                hex(&after[place..(place + 16).min(after.len())])
            ));
        }
        // Lengths and rooms stand before and behind the ranges.
        if wanted.refusal.number != BAD_LIST && wanted.refusal.number != NO_ROOM {
            if let Some(number) = by_the_ranges(self) {
                if number != wanted.refusal.number {
                    wrong.push(format!(
                        "the Rust refuses with {}, the specification's ranges with {number}",
                        wanted.refusal.number
                    ));
                }
            }
        }
        wrong
    }

    fn size(&self) -> u128 {
        Request::size(self)
    }

    fn words(&self) -> String {
        Request::words(self)
    }
}
