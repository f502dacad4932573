//! From the records of a text to steps or rows.

use crate::csv::{ByteRecord, Reader};
use crate::packed::StepQueue;
use crate::shape::{Protocol, Shape};
use crate::Fault;
use std::io::Read;

#[derive(Clone, Copy, PartialEq, Eq)]
pub enum Op {
    Load,
    Store(u64),
    Evict,
}

/// A load or a store of a word of a block, or an eviction of the block, of word 0.
#[derive(Clone, Copy)]
pub struct Work {
    pub block: u32,
    pub word: u32,
    pub op: Op,
}

#[derive(Clone, Copy)]
pub enum Step {
    Ask { core: u32, work: Work },
    Order { core: u32 },
    Respond { block: u32 },
}

/// A core's operation at an address, which lies in a block.
#[derive(Clone, Copy)]
pub struct Row {
    pub core: u32,
    pub op: Op,
    pub address: u64,
}

impl Row {
    pub fn work(&self, shape: Shape) -> Work {
        Work {
            block: shape.block_of(self.address).expect("a row's address lies in a block"),
            word: word_asked(shape, self.address, self.op),
            op: self.op,
        }
    }
}

/// The steps of a text. Its first record may be a heading.
pub fn read_steps(reader: impl Read, shape: Shape) -> Result<StepQueue, Fault> {
    let mut text = Reader::new(reader);
    let mut fields = ByteRecord::new();
    let mut steps = StepQueue::default();
    let mut may_be_heading = true;
    while text.read_record(&mut fields)? {
        if may_be_heading && letter_of(&fields) == Some(b'V') {
            is_heading_for(shape, &fields).then_some(()).ok_or_else(|| Fault::Record(fields.position()))?;
        } else {
            steps.push(step_in(shape, &fields).ok_or_else(|| Fault::Record(fields.position()))?);
        }
        may_be_heading = false;
    }
    Ok(steps)
}

pub fn read_rows(reader: impl Read, shape: Shape) -> Result<Vec<Row>, Fault> {
    let mut text = Reader::new(reader);
    let mut fields = ByteRecord::new();
    let mut rows = Vec::new();
    while text.read_record(&mut fields)? {
        rows.push(row_in(shape, &fields).ok_or_else(|| Fault::Record(fields.position()))?);
    }
    Ok(rows)
}

fn is_heading_for(shape: Shape, fields: &ByteRecord) -> bool {
    let name: &[u8] = match shape.protocol {
        Protocol::Msi => b"msi",
        Protocol::Mesi => b"mesi",
    };
    let numbers = [(1, 2), (3, shape.cores), (4, shape.blocks), (5, shape.block_bytes), (6, shape.words)];
    let is = |(field, value)| fields.get(field).and_then(number) == Some(u64::from(value));
    fields.len() == 7 && fields.get(2) == Some(name) && numbers.into_iter().all(is)
}

fn step_in(shape: Shape, fields: &ByteRecord) -> Option<Step> {
    match letter_of(fields)? {
        b'O' => {
            let [core] = numbers_of(fields)?;
            let core = shape.core_in(core)?;
            Some(Step::Order { core })
        }
        b'R' => {
            let [address] = numbers_of(fields)?;
            let block = shape.block_of(address)?;
            Some(Step::Respond { block })
        }
        letter => {
            let Row { core, op, address } = asked(shape, letter, fields)?;
            let block = shape.block_of(address)?;
            let word = word_asked(shape, address, op);
            let work = Work { block, word, op };
            Some(Step::Ask { core, work })
        }
    }
}

fn row_in(shape: Shape, fields: &ByteRecord) -> Option<Row> {
    let row = asked(shape, letter_of(fields)?, fields)?;
    shape.block_of(row.address)?;
    Some(row)
}

/// What a core asks for, by the record's letter.
#[inline(always)]
fn asked(shape: Shape, letter: u8, fields: &ByteRecord) -> Option<Row> {
    let (core, address, op) = match letter {
        b'S' => {
            let [core, address, value] = numbers_of(fields)?;
            (core, address, Op::Store(value))
        }
        b'L' | b'E' => {
            let [core, address] = numbers_of(fields)?;
            (core, address, if letter == b'L' { Op::Load } else { Op::Evict })
        }
        _ => return None,
    };
    let core = shape.core_in(core)?;
    Some(Row { core, op, address })
}

fn word_asked(shape: Shape, address: u64, op: Op) -> u32 {
    match op {
        Op::Load | Op::Store(_) => shape.word_of(address),
        Op::Evict => 0,
    }
}

/// The kind of a record, where it is one letter.
fn letter_of(fields: &ByteRecord) -> Option<u8> {
    match fields.get(0)? {
        [letter] => Some(*letter),
        _ => None,
    }
}

/// The numbers after the kind, where there are `N`.
#[inline(always)]
fn numbers_of<const N: usize>(fields: &ByteRecord) -> Option<[u64; N]> {
    if fields.len() != N + 1 {
        return None;
    }
    let mut numbers = [0; N];
    for (place, value) in numbers.iter_mut().enumerate() {
        *value = number(fields.get(place + 1)?)?;
    }
    Some(numbers)
}

fn number(field: &[u8]) -> Option<u64> {
    match field.strip_prefix(b"0x") {
        Some(digits) => numeral::<16>(digits),
        None => numeral::<10>(field),
    }
}

fn numeral<const BASE: u32>(digits: &[u8]) -> Option<u64> {
    if digits.is_empty() {
        return None;
    }
    digits.iter().try_fold(0u64, |value, &byte| {
        let digit = char::from(byte).to_digit(BASE)?;
        value.checked_mul(u64::from(BASE))?.checked_add(u64::from(digit))
    })
}
