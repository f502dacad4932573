//! The lines of all caches, and which cores another's request concerns.

use crate::blocks::BlockTable;
use crate::index_map::IndexMap;
use crate::rules::{cache_cell, event_seen, CacheAction, CacheState, Payload, Request};
use crate::shape::Shape;
use crate::text::Op;
use std::collections::TryReserveError;

/// What a core holds of a block.
pub struct Line<const N: usize> {
    pub state: CacheState,
    /// The word of the operation that waits, if one does.
    pub word: u32,
    pub waiting: Option<Op>,
    pub kept: Option<[u64; N]>,
}

impl<const N: usize> Line<N> {
    /// The words that it keeps, in a state that keeps some.
    pub fn words(&self) -> &[u64; N] {
        self.kept.as_ref().expect("the line keeps a value")
    }

    pub fn words_mut(&mut self) -> &mut [u64; N] {
        self.kept.as_mut().expect("the line keeps a value")
    }
}

/// A set of cores: a bit for each of the 256 that there are at most.
#[derive(Clone, Copy, Default)]
struct CoreSet([u64; 4]);

impl CoreSet {
    fn set(&mut self, core: u32, is_member: bool) {
        let bit = 1 << (core % 64);
        let word = &mut self.0[core as usize / 64];
        if is_member {
            *word |= bit;
        } else {
            *word &= !bit;
        }
    }
}

impl IntoIterator for CoreSet {
    type Item = u32;
    type IntoIter = CoreSetIter;

    fn into_iter(self) -> CoreSetIter {
        CoreSetIter { left: self.0, word: 0 }
    }
}

struct CoreSetIter {
    left: [u64; 4],
    word: usize,
}

impl Iterator for CoreSetIter {
    type Item = u32;

    fn next(&mut self) -> Option<u32> {
        while let Some(left) = self.left.get_mut(self.word) {
            if *left != 0 {
                let bit = left.trailing_zeros();
                *left &= *left - 1;
                return Some(64 * self.word as u32 + bit);
            }
            self.word += 1;
        }
        None
    }
}

/// The cores that keep a block's value.
#[derive(Clone, Copy, Default)]
struct Holders {
    /// Those that may write.
    owners: CoreSet,
    /// All of them.
    readers: CoreSet,
}

/// A map for each core, with a line for each block in which it isn't in I, and the holders of each block.
pub struct Lines<const N: usize> {
    caches: Vec<IndexMap<Line<N>>>,
    holders: BlockTable<Holders>,
}

/// A core that sends a message, and where its line stands.
#[derive(Clone, Copy)]
pub struct Sender {
    pub core: u32,
    pub place: usize,
}

impl<const N: usize> Lines<N> {
    pub fn new(shape: Shape) -> Lines<N> {
        Lines {
            caches: (0..shape.cores).map(|_| IndexMap::new()).collect(),
            holders: BlockTable::new(shape.blocks, Holders::default()),
        }
    }

    /// Where the core's line of the block stands, if it has one.
    pub fn place_of(&self, core: u32, block: u32) -> Option<usize> {
        self.caches[core as usize].place_of(block)
    }

    pub fn at(&self, core: u32, place: usize) -> &Line<N> {
        self.caches[core as usize].at(place)
    }

    pub fn at_mut(&mut self, core: u32, place: usize) -> &mut Line<N> {
        self.caches[core as usize].at_mut(place)
    }

    pub fn state(&self, core: u32, block: u32) -> CacheState {
        self.caches[core as usize].get(block).map_or(CacheState::I, |line| line.state)
    }

    /// Room for one more line of the core.
    pub fn try_reserve(&mut self, core: u32) -> Result<(), TryReserveError> {
        self.caches[core as usize].try_reserve()
    }

    /// Puts in a line, which keeps nothing, for a block that the core has none of.
    pub fn put(&mut self, core: u32, block: u32, line: Line<N>) {
        self.caches[core as usize].insert(block, line);
    }

    /// The line moves to its next state. One that moves to I is taken out.
    pub fn move_to(&mut self, core: u32, block: u32, place: usize, next: CacheState) {
        let cache = &mut self.caches[core as usize];
        let line = cache.at_mut(place);
        let before = line.state;
        if next == CacheState::I {
            cache.swap_remove(block);
        } else {
            line.state = next;
            if matches!(next, CacheState::ImAd | CacheState::IiA) {
                line.kept = None;
            }
        }
        if before.is_owner() != next.is_owner() || before.keeps() != next.keeps() {
            let holders = self.holders.get_mut(block);
            holders.owners.set(core, next.is_owner());
            holders.readers.set(core, next.keeps());
        }
    }

    /// The requestor, and the cores that its request for the block concerns.
    fn concerned(&self, block: u32, requestor: u32, request: Request) -> CoreSet {
        let holders = self.holders.get(block);
        let mut concerned = match request {
            Request::GetS => holders.owners,
            Request::GetM => holders.readers,
            Request::PutM => CoreSet::default(),
        };
        concerned.set(requestor, true);
        concerned
    }

    fn place_concerned(&self, core: u32, block: u32) -> usize {
        self.place_of(core, block).expect("a core that is concerned has a line")
    }

    /// The one core that sends a message for a request, and its payload, where memory sends none.
    pub fn sender(&self, requestor: u32, request: Request, block: u32) -> (Payload, Sender) {
        self.concerned(block, requestor, request)
            .into_iter()
            .find_map(|core| {
                let place = self.place_concerned(core, block);
                let cell = cache_cell(self.at(core, place).state, event_seen(core, requestor, request));
                match cell.action {
                    CacheAction::Send(payload) => Some((payload, Sender { core, place })),
                    _ => None,
                }
            })
            .expect("a core sends where memory does not")
    }

    /// Each core takes its row for a request on the block. That of a core that it does not concern changes nothing.
    pub fn take_rows(&mut self, requestor: u32, request: Request, block: u32) {
        for core in self.concerned(block, requestor, request) {
            let place = self.place_concerned(core, block);
            let state = self.at(core, place).state;
            let next = cache_cell(state, event_seen(core, requestor, request)).next;
            if next != state {
                self.move_to(core, block, place, next);
            }
        }
    }
}
