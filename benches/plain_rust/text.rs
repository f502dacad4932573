//! Texts: records of steps or rows in, lines out.

use crate::machine::{Cache, Op, Payload, Performed, Protocol, Reply, Request, Step};
use crate::{Fault, Shape};
use std::io::{self, Write};

/// Steps, four bytes each, and the values of the stores among them.
#[derive(Default)]
pub struct Records {
    packed: Vec<u32>,
    values: Vec<u64>,
}

// A load and a store add their word, below 64.
const LOAD: u32 = 0;
const STORE: u32 = 64;
const EVICT: u32 = 128;
const ORDER: u32 = 129;
const RESPOND: u32 = 130;

impl Records {
    fn push(&mut self, kind: u32, core: u32, block: u32) {
        self.packed.push(kind << 24 | core << 16 | block);
    }

    pub fn iter(&self) -> impl Iterator<Item = Step> + '_ {
        let mut values = self.values.iter();
        self.packed.iter().map(move |&packed| {
            let core = packed >> 16 & 255;
            let block = packed & 65535;
            let (word, op) = match packed >> 24 {
                kind @ LOAD..STORE => (kind - LOAD, Op::Load),
                kind @ STORE..EVICT => (kind - STORE, Op::Store(values.next().copied().unwrap_or(0))),
                EVICT => (0, Op::Evict),
                ORDER => return Step::Order { core },
                _ => return Step::Respond { block },
            };
            Step::Ask { core, block, word, op }
        })
    }
}

/// A text that is read piece by piece.
pub struct Texts {
    shape: Shape,
    shift: u32,
    word_shift: u32,
    of_rows: bool,
    records: Records,
    /// The end of what was read so far, without a line end.
    rest: Vec<u8>,
    at_head: bool,
}

impl Texts {
    pub fn new(shape: Shape, of_rows: bool) -> Texts {
        Texts {
            shape,
            shift: shape.block_bytes.trailing_zeros(),
            word_shift: (shape.block_bytes / shape.words).trailing_zeros(),
            of_rows,
            records: Records::default(),
            rest: Vec::new(),
            at_head: true,
        }
    }

    /// Reads the records of the next piece that end in it.
    pub fn take(&mut self, piece: &[u8]) -> Result<(), Fault> {
        let Some(last) = piece.iter().rposition(|&byte| is_line_end(byte)) else {
            self.rest.extend_from_slice(piece);
            return Ok(());
        };
        let (mut whole, rest) = piece.split_at(last + 1);
        if !self.rest.is_empty() || self.at_head {
            let first = whole.iter().position(|&byte| is_line_end(byte)).unwrap_or(last);
            let mut begun = std::mem::take(&mut self.rest);
            begun.extend_from_slice(&whole[..=first]);
            self.lines(&begun)?;
            whole = &whole[first + 1..];
        }
        self.lines(whole)?;
        self.rest.clear();
        self.rest.extend_from_slice(rest);
        Ok(())
    }

    pub fn end(mut self) -> Result<Records, Fault> {
        let mut rest = std::mem::take(&mut self.rest);
        if !rest.is_empty() {
            rest.push(b'\n');
            self.lines(&rest)?;
        }
        Ok(self.records)
    }

    /// Reads whole lines.
    fn lines(&mut self, mut text: &[u8]) -> Result<(), Fault> {
        if self.at_head {
            text = text.strip_prefix(b"\xEF\xBB\xBF").unwrap_or(text);
            self.at_head = false;
        }
        while let Some(&first) = text.first() {
            text = if is_line_end(first) {
                &text[1..]
            } else if let Some(after) = self.plain_record(text) {
                after
            } else {
                let length = text.iter().position(|&byte| is_line_end(byte)).unwrap_or(text.len());
                let (record, after) = text.split_at(length);
                self.record(record).ok_or(Fault::Record(self.records.packed.len() + 1))?;
                after
            };
        }
        Ok(())
    }

    /// Reads a record of bare decimal fields and gives what follows it; any other is left to `record`.
    fn plain_record<'a>(&mut self, text: &'a [u8]) -> Option<&'a [u8]> {
        let kind = *text.first()?;
        let (one, end, after) = bare_number(text.get(1..)?)?;
        if matches!(kind, b'O' | b'R') {
            is_line_end(end).then_some(())?;
            self.bus_step(kind, one)?;
            return Some(after);
        }
        let core = self.core(one)?;
        (end == b',').then_some(())?;
        let (address, end, after) = bare_number_from(after)?;
        let block = self.block(address)?;
        match kind {
            b'S' => {
                (end == b',').then_some(())?;
                let (value, end, after) = bare_number_from(after)?;
                is_line_end(end).then_some(())?;
                self.records.push(STORE + self.word(address), core, block);
                self.records.values.push(value);
                Some(after)
            }
            b'L' | b'E' => {
                is_line_end(end).then_some(())?;
                let kind = if kind == b'L' { LOAD + self.word(address) } else { EVICT };
                self.records.push(kind, core, block);
                Some(after)
            }
            _ => None,
        }
    }

    fn record(&mut self, record: &[u8]) -> Option<()> {
        let mut fields = record.split(|&byte| byte == b',').map(unquoted);
        let kind = fields.next()?;
        let mut number = || parse_number(fields.next()?);
        let &[kind] = kind else { return None };
        match kind {
            b'L' | b'S' | b'E' => {
                let core = self.core(number()?)?;
                let address = number()?;
                let block = self.block(address)?;
                if kind == b'S' {
                    let value = number()?;
                    self.records.values.push(value);
                    self.records.push(STORE + self.word(address), core, block);
                } else {
                    let kind = if kind == b'L' { LOAD + self.word(address) } else { EVICT };
                    self.records.push(kind, core, block);
                }
            }
            b'O' | b'R' => self.bus_step(kind, number()?)?,
            _ => return None,
        }
        fields.next().is_none().then_some(())
    }

    fn bus_step(&mut self, kind: u8, number: u64) -> Option<()> {
        if self.of_rows {
            return None;
        }
        if kind == b'O' {
            let core = self.core(number)?;
            self.records.push(ORDER, core, 0);
        } else {
            let block = self.block(number)?;
            self.records.push(RESPOND, 0, block);
        }
        Some(())
    }

    fn core(&self, number: u64) -> Option<u32> {
        (number < u64::from(self.shape.cores)).then_some(number as u32)
    }

    fn block(&self, address: u64) -> Option<u32> {
        let block = address >> self.shift;
        (block < u64::from(self.shape.blocks)).then_some(block as u32)
    }

    fn word(&self, address: u64) -> u32 {
        ((address >> self.word_shift) & (self.shape.words - 1)) as u32
    }
}

fn is_line_end(byte: u8) -> bool {
    byte == b'\n' || byte == b'\r'
}

/// A comma, then a number of at most 18 decimal digits, the byte that ends it, and what follows.
fn bare_number(text: &[u8]) -> Option<(u64, u8, &[u8])> {
    match text {
        [b',', after @ ..] => bare_number_from(after),
        _ => None,
    }
}

fn bare_number_from(text: &[u8]) -> Option<(u64, u8, &[u8])> {
    let mut number = 0;
    for (place, &byte) in text.iter().enumerate() {
        let digit = byte.wrapping_sub(b'0');
        if digit > 9 {
            let plain = (1..=18).contains(&place);
            return plain.then_some((number, byte, &text[place + 1..]));
        }
        if place == 18 {
            return None;
        }
        number = number * 10 + u64::from(digit);
    }
    None
}

fn decimal(field: &[u8]) -> Option<u64> {
    field.iter().try_fold(0u64, |number, byte| {
        let digit = byte.wrapping_sub(b'0');
        if digit > 9 {
            return None;
        }
        number.checked_mul(10)?.checked_add(u64::from(digit))
    })
}

fn hexadecimal(digits: &[u8]) -> Option<u64> {
    digits.iter().try_fold(0u64, |number, &byte| {
        let digit = char::from(byte).to_digit(16)?;
        number.checked_mul(16)?.checked_add(u64::from(digit))
    })
}

fn parse_number(field: &[u8]) -> Option<u64> {
    match field.strip_prefix(b"0x") {
        Some([]) => None,
        Some(digits) => hexadecimal(digits),
        None if field.is_empty() => None,
        None => decimal(field),
    }
}

fn unquoted(field: &[u8]) -> &[u8] {
    match field {
        [b'"', inner @ .., b'"'] => inner,
        _ => field,
    }
}

/// Lines for a writer, in pieces of 64 KiB.
pub struct Output<W> {
    writer: W,
    block_bytes: u64,
    word_bytes: u64,
    held: Vec<u8>,
}

const PIECE: usize = 1 << 16;

impl<W: Write> Output<W> {
    pub fn new(writer: W, shape: Shape) -> Output<W> {
        Output {
            writer,
            block_bytes: shape.block_bytes,
            word_bytes: shape.block_bytes / shape.words,
            held: Vec::with_capacity(PIECE + 256),
        }
    }

    pub fn flush(&mut self) -> io::Result<()> {
        self.writer.write_all(&self.held)?;
        self.held.clear();
        self.writer.flush()
    }

    fn end_line(&mut self) -> io::Result<()> {
        self.held.push(b'\n');
        if self.held.len() >= PIECE {
            self.writer.write_all(&self.held)?;
            self.held.clear();
        }
        Ok(())
    }

    fn text(&mut self, text: &str) {
        self.held.extend_from_slice(text.as_bytes());
    }

    fn number(&mut self, mut number: u64) {
        let mut digits = [0; 20];
        let mut first = digits.len();
        loop {
            first -= 1;
            digits[first] = b'0' + (number % 10) as u8;
            number /= 10;
            if number == 0 {
                break;
            }
        }
        self.held.extend_from_slice(&digits[first..]);
    }

    /// A line of words, each with a number after it.
    pub fn counts(&mut self, counts: &[(&str, u64)]) -> io::Result<()> {
        for &(word, count) in counts {
            self.text(word);
            self.number(count);
        }
        self.end_line()
    }

    /// The line of a block's last values.
    pub fn values(&mut self, block: u32, values: &[u64]) -> io::Result<()> {
        self.text("block ");
        self.number(u64::from(block));
        self.text(" value");
        for value in values {
            self.text(" ");
            self.number(*value);
        }
        self.end_line()
    }

    /// The record that says what steps are for.
    pub fn heading(&mut self, shape: Shape) -> io::Result<()> {
        self.text(match shape.protocol {
            Protocol::Msi => "V,2,msi",
            Protocol::Mesi => "V,2,mesi",
        });
        let numbers = [u64::from(shape.cores), u64::from(shape.blocks), shape.block_bytes, shape.words];
        for number in numbers {
            self.text(",");
            self.number(number);
        }
        self.end_line()
    }

    /// A step as a record.
    pub fn step(&mut self, step: Step) -> io::Result<()> {
        self.record(step);
        self.end_line()
    }

    /// The line of a step.
    pub fn line(&mut self, step: Step, reply: Reply) -> io::Result<()> {
        self.record(step);
        self.reply(reply);
        self.end_line()
    }

    fn record(&mut self, step: Step) {
        match step {
            Step::Ask { core, block, word, op } => {
                self.text(match op {
                    Op::Load => "L,",
                    Op::Store(_) => "S,",
                    Op::Evict => "E,",
                });
                self.number(u64::from(core));
                self.text(",");
                self.number(u64::from(block) * self.block_bytes + u64::from(word) * self.word_bytes);
                if let Op::Store(value) = op {
                    self.text(",");
                    self.number(value);
                }
            }
            Step::Order { core } => {
                self.text("O,");
                self.number(u64::from(core));
            }
            Step::Respond { block } => {
                self.text("R,");
                self.number(u64::from(block) * self.block_bytes);
            }
        }
    }

    fn reply(&mut self, reply: Reply) {
        match reply {
            Reply::Hit(value) => {
                self.text(": hit ");
                self.number(value);
            }
            Reply::StoreHit => self.text(": store hit"),
            Reply::Issued(Request::GetS) => self.text(": issued GetS"),
            Reply::Issued(Request::GetM) => self.text(": issued GetM"),
            Reply::Issued(Request::PutM) => self.text(": issued PutM"),
            Reply::Gone => self.text(": gone"),
            Reply::Absent => self.text(": absent"),
            Reply::Ordered(Request::GetS) => self.text(": ordered GetS"),
            Reply::Ordered(Request::GetM) => self.text(": ordered GetM"),
            Reply::Ordered(Request::PutM) => self.text(": ordered PutM"),
            Reply::Came(payload, sender, performed) => {
                self.text(match payload {
                    Payload::Data => ": Data from ",
                    Payload::DataE => ": DataE from ",
                    Payload::NoData => ": NoData from ",
                    Payload::NoDataE => ": NoDataE from ",
                });
                match sender {
                    None => self.text("memory"),
                    Some(core) => {
                        self.text("core ");
                        self.number(u64::from(core));
                    }
                }
                match performed {
                    None => {}
                    Some(Performed::Load(value)) => {
                        self.text(", load ");
                        self.number(value);
                    }
                    Some(Performed::Store(value)) => {
                        self.text(", store ");
                        self.number(value);
                    }
                }
            }
            Reply::Stalled(state) => {
                self.text(": refused Stalled ");
                self.text(name(state));
            }
            Reply::NothingWaiting => self.text(": refused NothingWaiting"),
            Reply::BusTaken(block) => {
                self.text(": refused BusTaken ");
                self.number(u64::from(block));
            }
            Reply::NoTransaction => self.text(": refused NoTransaction"),
        }
    }
}

fn name(state: Cache) -> &'static str {
    match state {
        Cache::I => "I",
        Cache::IsAd => "IS_AD",
        Cache::IsD => "IS_D",
        Cache::ImAd => "IM_AD",
        Cache::ImD => "IM_D",
        Cache::S => "S",
        Cache::SmAd => "SM_AD",
        Cache::SmD => "SM_D",
        Cache::E => "E",
        Cache::M => "M",
        Cache::EiA => "EI_A",
        Cache::MiA => "MI_A",
        Cache::IiA => "II_A",
    }
}
