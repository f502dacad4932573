//! The history of a machine: its items, packed, with their running tables and the blocks that they mention.

use crate::rules::{Payload, Request};
use crate::shape::Shape;
use std::collections::TryReserveError;

/// A performed operation: the core's operation of this number, from 0.
#[derive(Clone, Copy, PartialEq)]
pub struct Did {
    pub number: u64,
    pub core: u32,
    pub block: u32,
    pub word: u32,
    pub load: bool,
    pub hit: bool,
    pub value: u64,
}

/// A response: its requestor, and the core that sent it, or `None` for memory.
#[derive(Clone, Copy)]
pub struct Came {
    pub core: u32,
    pub request: Request,
    pub block: u32,
    pub from: Option<u32>,
    pub payload: Payload,
}

/// What one step adds to a history; most steps add none.
#[derive(Clone, Copy)]
pub enum Item {
    /// A hit.
    Did(Did),
    /// An ordered request.
    Sent { core: u32, request: Request, block: u32 },
    /// A response, with the operation that it performed, if any.
    Came(Came, Option<Did>),
}

impl Item {
    fn block(&self) -> u32 {
        match self {
            Item::Did(did) => did.block,
            Item::Sent { block, .. } => *block,
            Item::Came(came, _) => came.block,
        }
    }

    fn did(&self) -> Option<Did> {
        match self {
            Item::Did(did) => Some(*did),
            Item::Sent { .. } => None,
            Item::Came(_, did) => *did,
        }
    }
}

#[derive(Clone, Copy)]
enum Kind {
    Did,
    Sent,
    Came,
    Performed,
}

/// An item in fewer bytes. A field that its kind does not need is 0.
#[derive(Clone, Copy)]
struct Packed {
    value: u64,
    /// The number in five bytes.
    number_low: u32,
    number_high: u8,
    block: u16,
    core: u8,
    word: u8,
    /// The sender, where `has_sender`.
    from: u8,
    has_sender: bool,
    load: bool,
    hit: bool,
    kind: Kind,
    request: Request,
    payload: Payload,
}

impl Packed {
    fn new(item: Item) -> Packed {
        match item {
            Item::Did(did) => Packed::of_operation(did),
            Item::Sent { core, request, block } => Packed { request, ..Packed::empty(Kind::Sent, core, block) },
            Item::Came(came, None) => Packed::empty(Kind::Came, came.core, came.block).with_response(came),
            Item::Came(came, Some(did)) => Packed { kind: Kind::Performed, ..Packed::of_operation(did).with_response(came) },
        }
    }

    fn empty(kind: Kind, core: u32, block: u32) -> Packed {
        Packed {
            value: 0,
            number_low: 0,
            number_high: 0,
            block: block as u16,
            core: core as u8,
            word: 0,
            from: 0,
            has_sender: false,
            load: false,
            hit: false,
            kind,
            request: Request::GetS,
            payload: Payload::Data,
        }
    }

    fn of_operation(did: Did) -> Packed {
        Packed {
            value: did.value,
            number_low: did.number as u32,
            number_high: (did.number >> 32) as u8,
            word: did.word as u8,
            load: did.load,
            hit: did.hit,
            ..Packed::empty(Kind::Did, did.core, did.block)
        }
    }

    fn with_response(self, came: Came) -> Packed {
        Packed {
            from: came.from.unwrap_or(0) as u8,
            has_sender: came.from.is_some(),
            request: came.request,
            payload: came.payload,
            ..self
        }
    }

    fn unpack(&self) -> Item {
        let core = u32::from(self.core);
        let block = u32::from(self.block);
        let did = Did {
            number: u64::from(self.number_low) | u64::from(self.number_high) << 32,
            core,
            block,
            word: u32::from(self.word),
            load: self.load,
            hit: self.hit,
            value: self.value,
        };
        let came = Came {
            core,
            request: self.request,
            block,
            from: self.has_sender.then_some(u32::from(self.from)),
            payload: self.payload,
        };
        match self.kind {
            Kind::Did => Item::Did(did),
            Kind::Sent => Item::Sent { core, request: self.request, block },
            Kind::Came => Item::Came(came, None),
            Kind::Performed => Item::Came(came, Some(did)),
        }
    }
}

#[derive(Clone, Copy, Default, PartialEq)]
pub struct Totals {
    pub loads: u64,
    pub load_hits: u64,
    pub stores: u64,
    pub store_hits: u64,
    pub get_s: u64,
    pub get_m: u64,
    pub put_m: u64,
    pub from_memory: u64,
    pub from_caches: u64,
    pub writebacks: u64,
    pub clean: u64,
    pub stale: u64,
}

impl Totals {
    fn add(&mut self, item: &Item) {
        match item {
            Item::Did(did) => self.add_operation(did),
            Item::Sent { request, .. } => match request {
                Request::GetS => self.get_s += 1,
                Request::GetM => self.get_m += 1,
                Request::PutM => self.put_m += 1,
            },
            Item::Came(came, did) => {
                self.add_response(came);
                if let Some(did) = did {
                    self.add_operation(did);
                }
            }
        }
    }

    fn add_operation(&mut self, did: &Did) {
        if did.load {
            self.loads += 1;
            self.load_hits += u64::from(did.hit);
        } else {
            self.stores += 1;
            self.store_hits += u64::from(did.hit);
        }
    }

    fn add_response(&mut self, came: &Came) {
        let writeback = came.request == Request::PutM;
        match came.from {
            None => self.from_memory += 1,
            Some(_) => self.from_caches += u64::from(!writeback),
        }
        match came.payload {
            Payload::Data => self.writebacks += u64::from(writeback),
            Payload::DataE => {}
            Payload::NoDataE => self.clean += 1,
            Payload::NoData => self.stale += 1,
        }
    }
}

/// The running tables of a list of items.
#[derive(PartialEq)]
struct Board {
    words: usize,
    /// By word, those of block 0 first.
    values: Vec<u64>,
    /// By core, how many operations it has performed, and the last one.
    counts: Vec<u64>,
    lasts: Vec<Option<Did>>,
    totals: Totals,
}

impl Board {
    fn new(shape: Shape) -> Board {
        let words = shape.words as usize;
        Board {
            words,
            values: vec![0; shape.blocks as usize * words],
            counts: vec![0; shape.cores as usize],
            lasts: vec![None; shape.cores as usize],
            totals: Totals::default(),
        }
    }

    #[inline(always)]
    fn absorb(&mut self, item: &Item) {
        self.totals.add(item);
        if let Some(did) = item.did() {
            let core = did.core as usize;
            self.counts[core] += 1;
            self.lasts[core] = Some(did);
            if !did.load {
                self.values[did.block as usize * self.words + did.word as usize] = did.value;
            }
        }
    }
}

pub struct Log {
    shape: Shape,
    items: Vec<Packed>,
    board: Board,
    /// The blocks that an item mentions, in order of first mention, and by block whether it is among them.
    touched: Vec<u32>,
    marks: Vec<bool>,
}

impl Log {
    pub fn new(shape: Shape) -> Log {
        Log {
            shape,
            items: Vec::new(),
            board: Board::new(shape),
            touched: Vec::with_capacity(shape.blocks as usize),
            marks: vec![false; shape.blocks as usize],
        }
    }

    /// Room for one more item.
    pub fn try_reserve(&mut self) -> Result<(), TryReserveError> {
        self.items.try_reserve(1)
    }

    #[inline(always)]
    pub fn push(&mut self, item: Item) {
        self.board.absorb(&item);
        let mark = &mut self.marks[item.block() as usize];
        if !*mark {
            *mark = true;
            self.touched.push(item.block());
        }
        self.items.push(Packed::new(item));
    }

    /// How many operations of the core were performed.
    pub fn count(&self, core: u32) -> u64 {
        self.board.counts[core as usize]
    }

    pub fn totals(&self) -> Totals {
        debug_assert!(self.board == self.board_of_items());
        self.board.totals
    }

    /// The blocks that an item mentions, with the last values of their words.
    pub fn blocks(&self) -> impl Iterator<Item = (u32, &[u64])> {
        let words = self.board.words;
        self.touched.iter().map(move |&block| (block, &self.board.values[block as usize * words..][..words]))
    }

    /// The board once more, of the items alone.
    fn board_of_items(&self) -> Board {
        let mut board = Board::new(self.shape);
        for packed in &self.items {
            board.absorb(&packed.unpack());
        }
        board
    }
}
