//! A call on lent buffers as data, on its way to a program that includes lent.h, and what came
//! back held to what is expected.

use crate::calls::hex;
use crate::expected::Refusal;
use crate::side_by_side::Asked;

/// The bytes on either side of a buffer, which nobody may change.
const SIDE: usize = 16;

/// The numbers of a request, and the bytes that say something beside the buffers.
const NUMBERS: usize = 6;
const SAYS: usize = 24 + 8 * VALUES;

/// The numbers of an answer: as many as the longest has.
pub const VALUES: usize = 8;

/// A call of the header.
pub trait Called: Copy + 'static {
    /// The buffers that every request has room for.
    const BUFFERS: usize;

    /// What the counts behind a call's line are.
    const COUNTED: &'static str;

    /// Each call with the number under which the program knows it, and its name in the header
    /// without `tishkolan_`.
    fn all() -> Vec<(u8, &'static str)>;

    fn number(self) -> u8;

    /// What the numbers of a request are, in order.
    fn numbers(self) -> &'static [&'static str];

    /// What its buffers are, in the order of the header.
    fn buffers(self) -> &'static [&'static str];

    /// What the call has to say.
    fn expected(request: &Request<Self>) -> Answer;

    /// Under which number an answer is counted.
    fn counted(answer: &Answer) -> u32;

    /// Kinds of requests that are counted apart; all of them have to come.
    fn kinds() -> &'static [&'static str] {
        &[]
    }

    /// The place of a request's kind among those, where it has one.
    fn kind(_request: &Request<Self>, _answer: &Answer) -> Option<usize> {
        None
    }
}

/// One call with its arguments and all that it is lent.
#[derive(Debug, Clone)]
pub struct Request<Call> {
    pub call: Call,
    pub numbers: Vec<u64>,
    pub buffers: Vec<Vec<u8>>,
    /// Lend NULL where a length is 0.
    pub null: bool,
}

/// All that a call says, and all that it was lent as it stands at return.
#[derive(Debug, Clone, PartialEq, Eq)]
pub struct Answer {
    pub refusal: Refusal,
    /// The answer's numbers in the order of the header.
    pub values: [u64; VALUES],
    pub buffers: Vec<Vec<u8>>,
}

impl<Call: Called> Request<Call> {
    pub fn new(call: Call, numbers: &[u64], buffers: &[&[u8]]) -> Request<Call> {
        assert_eq!(numbers.len(), call.numbers().len());
        assert_eq!(buffers.len(), call.buffers().len());
        Request {
            call,
            numbers: numbers.to_vec(),
            buffers: buffers.iter().map(|buffer| buffer.to_vec()).collect(),
            null: false,
        }
    }
}

/// An answer's first numbers; the others are 0.
pub fn values(first: &[u64]) -> [u64; VALUES] {
    let mut values = [0; VALUES];
    values[..first.len()].copy_from_slice(first);
    values
}

fn side(place: usize) -> u8 {
    0xC3u8.wrapping_add((place as u8).wrapping_mul(37))
}

/// The first place where a buffer is not as wanted, in words.
fn differs(name: &str, said: &[u8], wanted: &[u8]) -> Option<String> {
    let mut whole: Vec<u8> = (0..wanted.len() + 2 * SIDE).map(side).collect();
    whole[SIDE..SIDE + wanted.len()].copy_from_slice(wanted);
    let place = said
        .iter()
        .zip(&whole)
        .position(|(one, other)| one != other)?;
    let end = (place + 24).min(whole.len());
    Some(format!(
        "left at byte {} of {name} {}, wanted {}",
        place as i64 - SIDE as i64,
        hex(&said[place..end]),
        hex(&whole[place..end])
    ))
}

impl<Call: Called> Asked for Request<Call> {
    type Wanted = Answer;

    const COUNTED: &'static str = Call::COUNTED;

    fn calls() -> Vec<(u8, &'static str)> {
        Call::all()
    }

    fn number(&self) -> u8 {
        self.call.number()
    }

    fn send(&self, batch: &mut Vec<u8>) {
        batch.extend([self.number(), self.buffers.len() as u8, self.null.into(), 0]);
        batch.extend([0; 4]);
        for place in 0..NUMBERS {
            let number = self.numbers.get(place).copied().unwrap_or(0);
            batch.extend(number.to_le_bytes());
        }
        for place in 0..Call::BUFFERS {
            let length = self.buffers.get(place).map_or(0, Vec::len);
            batch.extend((length as u64).to_le_bytes());
        }
        for buffer in &self.buffers {
            batch.extend(buffer);
        }
    }

    fn wanted(&self) -> Answer {
        Call::expected(self)
    }

    fn counted(wanted: &Answer) -> u32 {
        Call::counted(wanted)
    }

    fn kinds() -> &'static [&'static str] {
        Call::kinds()
    }

    fn kind(&self, wanted: &Answer) -> Option<usize> {
        Call::kind(self, wanted)
    }

    fn judge(&self, wanted: &Answer, said: &mut &[u8]) -> Vec<String> {
        let (head, mut rest) = said.split_at(SAYS);
        let refusal = Refusal::read(head);
        let long = |at: usize| u64::from_le_bytes(head[at..at + 8].try_into().unwrap());
        let values = std::array::from_fn(|place| long(24 + 8 * place));

        let mut wrong = Vec::new();
        if refusal != wanted.refusal {
            wrong.push(format!("said {:?}, wanted {:?}", refusal, wanted.refusal));
        }
        if values != wanted.values {
            wrong.push(format!("gave {:X?}, wanted {:X?}", values, wanted.values));
        }
        for (name, buffer) in self.call.buffers().iter().zip(&wanted.buffers) {
            let (after, more) = rest.split_at(buffer.len() + 2 * SIDE);
            wrong.extend(differs(name, after, buffer));
            rest = more;
        }
        *said = rest;
        wrong
    }

    /// First by the bytes lent, then by the numbers.
    fn size(&self) -> u128 {
        let bytes: usize = self.buffers.iter().map(Vec::len).sum();
        let numbers: u128 = self.numbers.iter().map(|&number| u128::from(number)).sum();
        ((bytes as u128) << 70) + numbers
    }

    /// Of a long buffer only the front.
    fn words(&self) -> String {
        let numbers = self.call.numbers().iter().zip(&self.numbers);
        let buffers = self.call.buffers().iter().zip(&self.buffers);
        let mut words: Vec<String> = numbers
            .map(|(name, number)| format!("{name} {number} (0x{number:X})"))
            .collect();
        words.extend(buffers.map(|(name, bytes)| {
            let front = &bytes[..bytes.len().min(96)];
            let more = if front.len() < bytes.len() { " .." } else { "" };
            format!("{name} ({}) {}{more}", bytes.len(), hex(front))
        }));
        words.join(", ")
    }
}
