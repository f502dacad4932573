//! The steps of a text, packed until they are taken.

use crate::text::{Op, Step, Work};
use std::collections::VecDeque;

/// What a step is, without its data. What a core asks is of its block's first word, or of another one.
#[derive(Clone, Copy)]
enum Kind {
    Load,
    Store,
    Evict,
    LoadOfWord,
    StoreOfWord,
    Order,
    Respond,
}

#[derive(Clone, Copy)]
struct Head {
    block: u16,
    core: u8,
    kind: Kind,
}

/// Steps in their order.
#[derive(Default)]
pub struct StepQueue {
    heads: VecDeque<Head>,
    /// The words of those that are not of a first word.
    words: VecDeque<u8>,
    /// What the stores among them store.
    values: VecDeque<u64>,
}

impl StepQueue {
    pub fn push(&mut self, step: Step) {
        let (core, block, kind) = match step {
            Step::Ask { core, work } => (core, work.block, self.push_data(work)),
            Step::Order { core } => (core, 0, Kind::Order),
            Step::Respond { block } => (0, block, Kind::Respond),
        };
        self.heads.push_back(Head { block: block as u16, core: core as u8, kind });
    }

    /// Keeps the word, if it is not the first, and what is stored.
    fn push_data(&mut self, work: Work) -> Kind {
        if let Op::Store(value) = work.op {
            self.values.push_back(value);
        }
        if work.word != 0 {
            self.words.push_back(work.word as u8);
        }
        match work.op {
            Op::Load if work.word == 0 => Kind::Load,
            Op::Load => Kind::LoadOfWord,
            Op::Store(_) if work.word == 0 => Kind::Store,
            Op::Store(_) => Kind::StoreOfWord,
            Op::Evict => Kind::Evict,
        }
    }

    /// Takes the first step away.
    pub fn next(&mut self) -> Option<Step> {
        let head = self.heads.pop_front()?;
        let core = u32::from(head.core);
        let block = u32::from(head.block);
        let (word, op) = match head.kind {
            Kind::Order => return Some(Step::Order { core }),
            Kind::Respond => return Some(Step::Respond { block }),
            Kind::Load => (0, Op::Load),
            Kind::Evict => (0, Op::Evict),
            Kind::Store => (0, Op::Store(self.values.pop_front()?)),
            Kind::LoadOfWord => (self.words.pop_front()?, Op::Load),
            Kind::StoreOfWord => (self.words.pop_front()?, Op::Store(self.values.pop_front()?)),
        };
        let work = Work { block, word: u32::from(word), op };
        Some(Step::Ask { core, work })
    }
}
