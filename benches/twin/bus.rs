//! The bus: each core's queue of requests that wait to be ordered, and the open transaction of each block.

use crate::blocks::BlockTable;
use crate::rules::{Payload, Request};
use crate::shape::Shape;
use std::collections::{TryReserveError, VecDeque};

/// An open transaction: the requestor, its request, and the message that lies in it.
#[derive(Clone, Copy)]
pub struct Open<const N: usize> {
    pub core: u32,
    pub request: Request,
    pub payload: Payload,
    /// The block's words, where the payload carries data, else 0.
    pub value: [u64; N],
    /// The core that sent the message, or `None` for memory.
    pub from: Option<u32>,
}

pub struct Bus<const N: usize> {
    queues: Vec<VecDeque<(Request, u32)>>,
    transactions: BlockTable<Option<Open<N>>>,
}

impl<const N: usize> Bus<N> {
    pub fn new(shape: Shape) -> Bus<N> {
        Bus { queues: (0..shape.cores).map(|_| VecDeque::new()).collect(), transactions: BlockTable::new(shape.blocks, None) }
    }

    /// Room for one more request of the core.
    pub fn try_reserve(&mut self, core: u32) -> Result<(), TryReserveError> {
        self.queues[core as usize].try_reserve(1)
    }

    pub fn issue(&mut self, core: u32, request: Request, block: u32) {
        self.queues[core as usize].push_back((request, block));
    }

    /// The core's oldest request and its block.
    pub fn head(&self, core: u32) -> Option<(Request, u32)> {
        self.queues[core as usize].front().copied()
    }

    pub fn open(&self, block: u32) -> Option<&Open<N>> {
        self.transactions.get(block).as_ref()
    }

    /// The core's oldest request, which is for the block, leaves its queue, and its transaction opens.
    pub fn start(&mut self, block: u32, opened: Open<N>) {
        self.queues[opened.core as usize].pop_front();
        *self.transactions.get_mut(block) = Some(opened);
    }

    /// Closes the block's transaction.
    pub fn finish(&mut self, block: u32) {
        *self.transactions.get_mut(block) = None;
    }
}
