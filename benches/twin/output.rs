//! The lines of steps and the report, written in chunks.

use crate::history::Log;
use crate::machine::{Refused, Reply};
use crate::rules::{CacheState, Payload, Request};
use crate::shape::Shape;
use crate::text::{Op, Step, Work};
use std::io::{self, Write};

const CHUNK: usize = 1 << 16;

pub struct Output<W> {
    writer: W,
    shape: Shape,
    chunk: Vec<u8>,
}

impl<W: Write> Output<W> {
    pub fn new(writer: W, shape: Shape) -> Output<W> {
        Output { writer, shape, chunk: Vec::new() }
    }

    /// Appends the line of a step and what the machine answered.
    pub fn line(&mut self, step: Step, outcome: Result<Reply, Refused>) -> io::Result<()> {
        self.step(step);
        self.text(": ");
        match outcome {
            Ok(reply) => self.reply(reply),
            Err(cause) => self.refusal(cause),
        }
        self.byte(b'\n');
        if self.chunk.len() >= CHUNK {
            self.spill()?;
        }
        Ok(())
    }

    /// Writes what is left of the lines, and the report.
    pub fn report(&mut self, log: &Log) -> io::Result<()> {
        self.spill()?;
        let totals = log.totals();
        self.counts(&[("loads ", totals.loads), (" hits ", totals.load_hits)]);
        self.counts(&[("stores ", totals.stores), (" hits ", totals.store_hits)]);
        self.counts(&[("GetS ", totals.get_s), (" GetM ", totals.get_m), (" PutM ", totals.put_m)]);
        self.counts(&[("from memory ", totals.from_memory), (" from caches ", totals.from_caches)]);
        self.counts(&[("writebacks ", totals.writebacks), (" clean ", totals.clean), (" stale ", totals.stale)]);
        for (block, values) in log.blocks() {
            self.numbered("block ", u64::from(block));
            self.text(" value");
            for &value in values {
                self.numbered(" ", value);
            }
            self.byte(b'\n');
        }
        self.spill()?;
        self.writer.flush()
    }

    fn counts(&mut self, counts: &[(&str, u64)]) {
        for &(word, count) in counts {
            self.numbered(word, count);
        }
        self.byte(b'\n');
    }

    fn spill(&mut self) -> io::Result<()> {
        self.writer.write_all(&self.chunk)?;
        self.chunk.clear();
        Ok(())
    }

    fn byte(&mut self, byte: u8) {
        self.chunk.push(byte);
    }

    fn text(&mut self, text: &str) {
        self.chunk.extend_from_slice(text.as_bytes());
    }

    /// A text and then a number.
    fn numbered(&mut self, text: &str, number: u64) {
        self.text(text);
        self.number(number);
    }

    fn field(&mut self, number: u64) {
        self.byte(b',');
        self.number(number);
    }

    #[inline(always)]
    fn number(&mut self, number: u64) {
        if number < 10 {
            self.byte(b'0' + number as u8);
        } else {
            self.digits(number);
        }
    }

    /// A number of several digits, by two at a time.
    #[inline(never)]
    fn digits(&mut self, mut number: u64) {
        let mut digits = [0; 20];
        let mut first = digits.len();
        while number >= 10 {
            let pair = (number % 100) as usize;
            number /= 100;
            first -= 2;
            digits[first..first + 2].copy_from_slice(&PAIRS[pair]);
        }
        if number > 0 {
            first -= 1;
            digits[first] = b'0' + number as u8;
        }
        self.chunk.extend_from_slice(&digits[first..]);
    }

    fn step(&mut self, step: Step) {
        match step {
            Step::Ask { core, work } => self.ask(core, work),
            Step::Order { core } => {
                self.byte(b'O');
                self.field(u64::from(core));
            }
            Step::Respond { block } => {
                self.byte(b'R');
                self.field(self.shape.address_of(block, 0));
            }
        }
    }

    fn ask(&mut self, core: u32, work: Work) {
        self.byte(match work.op {
            Op::Load => b'L',
            Op::Store(_) => b'S',
            Op::Evict => b'E',
        });
        self.field(u64::from(core));
        self.field(self.shape.address_of(work.block, work.word));
        if let Op::Store(value) = work.op {
            self.field(value);
        }
    }

    fn reply(&mut self, reply: Reply) {
        match reply {
            Reply::Hit(value) => self.numbered("hit ", value),
            Reply::StoreHit => self.text("store hit"),
            Reply::Issued(Request::GetS) => self.text("issued GetS"),
            Reply::Issued(Request::GetM) => self.text("issued GetM"),
            Reply::Issued(Request::PutM) => self.text("issued PutM"),
            Reply::Gone => self.text("gone"),
            Reply::Absent => self.text("absent"),
            Reply::Ordered(Request::GetS) => self.text("ordered GetS"),
            Reply::Ordered(Request::GetM) => self.text("ordered GetM"),
            Reply::Ordered(Request::PutM) => self.text("ordered PutM"),
            Reply::Came { payload, from, did } => {
                match from {
                    None => self.text(from_memory(payload)),
                    Some(core) => self.numbered(from_core(payload), u64::from(core)),
                }
                if let Some(did) = did {
                    self.numbered(if did.load { ", load " } else { ", store " }, did.value);
                }
            }
        }
    }

    fn refusal(&mut self, cause: Refused) {
        match cause {
            Refused::NoCore => self.text("refused NoCore"),
            Refused::NoBlock => self.text("refused NoBlock"),
            Refused::Stalled(state) => self.text(stalled(state)),
            Refused::NothingWaiting => self.text("refused NothingWaiting"),
            Refused::BusTaken(block) => self.numbered("refused BusTaken ", u64::from(block)),
            Refused::NoTransaction => self.text("refused NoTransaction"),
            Refused::NoMemory => self.text("refused NoMemory"),
        }
    }
}

/// The numbers below 100, as two digits each.
static PAIRS: [[u8; 2]; 100] = {
    let mut pairs = [[0; 2]; 100];
    let mut number = 0;
    while number < 100 {
        pairs[number] = [b'0' + number as u8 / 10, b'0' + number as u8 % 10];
        number += 1;
    }
    pairs
};

fn from_memory(payload: Payload) -> &'static str {
    match payload {
        Payload::Data => "Data from memory",
        Payload::DataE => "DataE from memory",
        Payload::NoData => "NoData from memory",
        Payload::NoDataE => "NoDataE from memory",
    }
}

/// The core's number follows.
fn from_core(payload: Payload) -> &'static str {
    match payload {
        Payload::Data => "Data from core ",
        Payload::DataE => "DataE from core ",
        Payload::NoData => "NoData from core ",
        Payload::NoDataE => "NoDataE from core ",
    }
}

fn stalled(state: CacheState) -> &'static str {
    match state {
        CacheState::I => "refused Stalled I",
        CacheState::IsAd => "refused Stalled IS_AD",
        CacheState::IsD => "refused Stalled IS_D",
        CacheState::ImAd => "refused Stalled IM_AD",
        CacheState::ImD => "refused Stalled IM_D",
        CacheState::S => "refused Stalled S",
        CacheState::SmAd => "refused Stalled SM_AD",
        CacheState::SmD => "refused Stalled SM_D",
        CacheState::E => "refused Stalled E",
        CacheState::M => "refused Stalled M",
        CacheState::EiA => "refused Stalled EI_A",
        CacheState::MiA => "refused Stalled MI_A",
        CacheState::IiA => "refused Stalled II_A",
    }
}
