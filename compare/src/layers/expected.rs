//! What each call on layers has to say: the oracle's `Layer` holds what a table says, and the
//! bytes at return follow from it by the specification's words. Survey files, rooms, lengths and
//! BadLayer, which the Rust does not have, are the specification's alone.

#![allow(deprecated)]

use super::calls::{Call, Of, Request};
use super::survey;
use super::table::{self, Kept};
use crate::expected::{Refusal, BAD_FILE, BAD_LIST, HAS_NAN, NO_VALUES, OUT_OF_RANGE};
use crate::lent::{values, Answer, VALUES};
use oracle::error::Error;
use oracle::id::CellID;
use oracle::layer::{Aggregation, CellFlags, Layer};

/// What is written where an operation made a NaN.
pub const MADE_NAN: u64 = 0x7FF8_0000_0000_0000;

/// A refusal, with the byte place of BadFile.
struct Refused {
    refusal: Refusal,
    place: u64,
}

impl From<Refusal> for Refused {
    fn from(refusal: Refusal) -> Refused {
        Refused { refusal, place: 0 }
    }
}

type Said = Result<[u64; VALUES], Refused>;

fn says(numbers: &[u64]) -> Said {
    Ok(values(numbers))
}

/// The cells of a list; BadList where its length is no multiple of 16.
pub(crate) fn cells(list: &[u8]) -> Result<Vec<CellID>, Refusal> {
    if list.len() % 16 != 0 {
        return Err(Refusal::plain(BAD_LIST));
    }
    Ok(list
        .chunks_exact(16)
        .map(|cell| CellID::from_bytes(cell.try_into().unwrap()))
        .collect())
}

/// A single cell; BadList at another length than 16.
pub(crate) fn one_cell(bytes: &[u8]) -> Result<CellID, Refusal> {
    match cells(bytes)?[..] {
        [cell] => Ok(cell),
        _ => Err(Refusal::plain(BAD_LIST)),
    }
}

/// The aggregation of a number; OutOfRange where there is none.
fn aggregation(how: u64) -> Result<Aggregation, Refusal> {
    Ok(match how as u32 {
        0 => Aggregation::Count,
        1 => Aggregation::Sum,
        2 => Aggregation::Mean,
        3 => Aggregation::Min,
        4 => Aggregation::Max,
        5 => Aggregation::Median,
        _ => return Err(Refusal::plain(OUT_OF_RANGE)),
    })
}

/// The Rust tells its two refusals apart by a text.
fn not_aggregated(error: Error) -> Refusal {
    match error {
        Error::InvalidAggregation(text) if text == "No values to aggregate" => {
            Refusal::plain(NO_VALUES)
        }
        Error::InvalidAggregation(text) if text == "Cannot aggregate values containing NaN" => {
            Refusal::plain(HAS_NAN)
        }
        other => panic!("an aggregate refused otherwise: {other:?}"),
    }
}

/// The oracle's NaN is only known to be one: the NaN's bits are the specification's.
fn made(value: f64) -> f64 {
    if value.is_nan() {
        f64::from_bits(MADE_NAN)
    } else {
        value
    }
}

/// Puts an answer to the front of its buffer. NoRoom 3.
fn fill(out: &mut [u8], answer: &[u8]) -> Result<(), Refusal> {
    match out.get_mut(..answer.len()) {
        Some(front) => {
            front.copy_from_slice(answer);
            Ok(())
        }
        None => Err(Refusal::no_room(3)),
    }
}

/// The calls on one layer: a table, and a cell or a buffer beside it.
fn on_a_layer<T: Kept>(call: Call, numbers: &[u64], buffers: &mut [Vec<u8>]) -> Said {
    let (table, beside) = buffers.split_first_mut().unwrap();
    if let Call::Clear(_) = call {
        table::replace::<T>(table, &Layer::new(""))?;
        return says(&[]);
    }
    let count = numbers[0];
    let cell = match call {
        Call::Set(_) | Call::Get(_) | Call::Remove(_) | Call::Contains(_) => one_cell(&beside[0])?,
        _ => CellID::from_bytes([0; 16]),
    };
    let mut layer = table::read::<T>(table, count)?;
    match call {
        Call::Set(_) => {
            layer.set(cell, T::of(numbers[1]));
            if layer.len() > table::limit::<T>(table) {
                return Err(Refusal::no_room(4).into());
            }
            table::put(table, &layer);
            says(&[layer.len() as u64])
        }
        Call::Get(_) => match layer.get(&cell) {
            Some(kept) => says(&[1, kept.number(), count]),
            None => says(&[0, 0, count]),
        },
        Call::Remove(_) => match layer.remove(&cell) {
            Some(kept) => {
                table::put(table, &layer);
                table[layer.len() * T::WIDTH..][..T::WIDTH].fill(0);
                says(&[1, kept.number(), layer.len() as u64])
            }
            None => says(&[0, 0, count]),
        },
        Call::Contains(_) => says(&[layer.contains(&cell).into()]),
        Call::Count(_) => says(&[layer.len() as u64]),
        Call::IsEmpty(_) => says(&[layer.is_empty().into()]),
        Call::List(_) => {
            fill(&mut beside[0], &table::records(&layer))?;
            says(&[count])
        }
        _ => unreachable!(),
    }
}

fn aggregate(numbers: &[u64], buffers: &[Vec<u8>]) -> Said {
    let list = cells(&buffers[1])?;
    let layer = table::read::<f64>(&buffers[0], numbers[0])?;
    let value = layer
        .aggregate(&list, aggregation(numbers[1])?)
        .map_err(not_aggregated)?;
    says(&[made(value).to_bits()])
}

fn rollup(numbers: &[u64], buffers: &mut [Vec<u8>]) -> Said {
    let fine = table::read::<f64>(&buffers[0], numbers[0])?;
    let coarse = fine
        .rollup(aggregation(numbers[1])?)
        .map_err(not_aggregated)?;
    let mut said = Layer::new("");
    for (&cell, &value) in coarse.iter() {
        said.set(cell, made(value));
    }
    table::replace(&mut buffers[1], &said)?;
    says(&[said.len() as u64])
}

fn load(buffers: &mut [Vec<u8>]) -> Said {
    let [file, flags, values] = buffers else {
        unreachable!()
    };
    let [flag_records, value_records] = survey::sections(file).map_err(|(_, place)| Refused {
        refusal: Refusal::plain(BAD_FILE),
        place,
    })?;
    let flags = table::lay::<u32>(flags, flag_records)?;
    let values = table::lay::<f64>(values, value_records)?;
    says(&[0, flags, values])
}

fn write(numbers: &[u64], buffers: &mut [Vec<u8>]) -> Said {
    let flags = table::read::<u32>(&buffers[0], numbers[0])?;
    let values = table::read::<f64>(&buffers[1], numbers[1])?;
    let file = survey::write(&flags, &values);
    fill(&mut buffers[2], &file)?;
    says(&[file.len() as u64])
}

fn say(request: &Request, buffers: &mut [Vec<u8>]) -> Said {
    let numbers = &request.numbers[..];
    let flags = || CellFlags::new(numbers[0] as u32);
    match request.call {
        Call::Set(of)
        | Call::Get(of)
        | Call::Remove(of)
        | Call::Contains(of)
        | Call::Clear(of)
        | Call::Count(of)
        | Call::IsEmpty(of)
        | Call::List(of) => match of {
            Of::Flags => on_a_layer::<u32>(request.call, numbers, buffers),
            Of::Values => on_a_layer::<f64>(request.call, numbers, buffers),
        },
        Call::Aggregate => aggregate(numbers, buffers),
        Call::Rollup => rollup(numbers, buffers),
        Call::Load => load(buffers),
        Call::Write => write(numbers, buffers),
        Call::HasFlag => says(&[flags().has_flag(numbers[1] as u32).into()]),
        Call::SetFlag => {
            let mut flags = flags();
            flags.set_flag(numbers[1] as u32);
            says(&[flags.bits().into()])
        }
        Call::ClearFlag => {
            let mut flags = flags();
            flags.clear_flag(numbers[1] as u32);
            says(&[flags.bits().into()])
        }
        Call::IsBlocked => says(&[flags().is_blocked().into()]),
    }
}

/// What is said beside a refusal: the counts that were given, else 0.
fn beside(request: &Request, place: u64) -> [u64; VALUES] {
    let numbers = &request.numbers;
    match request.call {
        Call::Set(_) | Call::Count(_) | Call::List(_) => values(&[numbers[0]]),
        Call::Get(_) | Call::Remove(_) => values(&[0, 0, numbers[0]]),
        Call::Rollup => values(&[numbers[2]]),
        Call::Load => values(&[place, numbers[0], numbers[1]]),
        _ => values(&[]),
    }
}

/// What the call has to say. A refusal changes nothing.
pub fn expected(request: &Request) -> Answer {
    let mut buffers = request.buffers.clone();
    match say(request, &mut buffers) {
        Ok(values) => Answer {
            refusal: Refusal::default(),
            values,
            buffers,
        },
        Err(Refused { refusal, place }) => Answer {
            refusal,
            values: beside(request, place),
            buffers: request.buffers.clone(),
        },
    }
}
