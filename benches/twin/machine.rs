//! The machine, whose every step is found, gets its room, and is made.

use crate::blocks::BlockTable;
use crate::bus::{Bus, Open};
use crate::history::{Came, Did, Item, Log};
use crate::lines::{Line, Lines, Sender};
use crate::rules::{
    arrival, arrival_at_memory, cache_cell, event_asked, event_at_memory, mem_cell, CacheAction, CacheState, MemAction, MemCell,
    MemState, Payload, Request,
};
use crate::shape::Shape;
use crate::text::{Op, Step, Work};
use std::collections::TryReserveError;

#[derive(Clone, Copy)]
pub enum Reply {
    Hit(u64),
    StoreHit,
    Issued(Request),
    Gone,
    Absent,
    Ordered(Request),
    Came { payload: Payload, from: Option<u32>, did: Option<Did> },
}

/// Why a step was refused. Nothing has changed.
#[derive(Clone, Copy)]
pub enum Refused {
    NoCore,
    NoBlock,
    Stalled(CacheState),
    NothingWaiting,
    BusTaken(u32),
    NoTransaction,
    NoMemory,
}

impl From<TryReserveError> for Refused {
    fn from(_: TryReserveError) -> Refused {
        Refused::NoMemory
    }
}

#[derive(Clone, Copy)]
struct MemLine<const N: usize> {
    state: MemState,
    value: [u64; N],
}

/// What a step will do, and where the lines stand that it is of.
enum Plan {
    Hit {
        core: u32,
        work: Work,
        place: usize,
        next: CacheState,
    },
    Issue {
        core: u32,
        work: Work,
        place: Option<usize>,
        next: CacheState,
        request: Request,
    },
    Drop {
        core: u32,
        block: u32,
        place: usize,
    },
    Absent,
    Order {
        core: u32,
        request: Request,
        block: u32,
        payload: Payload,
        sender: Option<Sender>,
        memory: MemState,
    },
    /// Memory takes the message of a PutM.
    Writeback {
        block: u32,
        memory: MemCell,
    },
    /// The requestor takes its data, and so does memory where it waits too.
    Fill {
        block: u32,
        place: usize,
        next: CacheState,
        memory: Option<MemCell>,
    },
}

/// A machine whose blocks have `N` words.
pub struct Machine<const N: usize> {
    shape: Shape,
    lines: Lines<N>,
    memory: BlockTable<MemLine<N>>,
    bus: Bus<N>,
    log: Log,
}

impl<const N: usize> Machine<N> {
    pub fn reset(shape: Shape) -> Machine<N> {
        let first = MemLine { state: MemState::at_reset(shape.protocol), value: [0; N] };
        Machine {
            shape,
            lines: Lines::new(shape),
            memory: BlockTable::new(shape.blocks, first),
            bus: Bus::new(shape),
            log: Log::new(shape),
        }
    }

    pub fn log(&self) -> &Log {
        &self.log
    }

    /// Takes one step. A refused step changes nothing.
    #[inline(always)]
    pub fn step(&mut self, step: Step) -> Result<Reply, Refused> {
        let plan = self.find(step)?;
        self.make_room(&plan)?;
        Ok(self.make(plan))
    }

    /// The step of a core's turn with a work that it has asked for; `None` where the work is over.
    pub fn turn_step(&self, core: u32, block: u32) -> Option<Step> {
        match self.bus.open(block) {
            Some(open) if open.core == core || self.waits_on(core, block) => Some(Step::Respond { block }),
            None if self.waits_on(core, block) => Some(Step::Order { core }),
            _ => None,
        }
    }

    /// Whether the core's request for the block waits to be ordered.
    fn waits_on(&self, core: u32, block: u32) -> bool {
        match self.bus.head(core) {
            None => false,
            Some((_, first)) => first == block || self.lines.state(core, block).waits(),
        }
    }

    #[inline(always)]
    fn find(&self, step: Step) -> Result<Plan, Refused> {
        match step {
            Step::Ask { core, .. } | Step::Order { core } if core >= self.shape.cores => Err(Refused::NoCore),
            Step::Ask { work, .. } if work.block >= self.shape.blocks || work.word >= self.shape.words => Err(Refused::NoBlock),
            Step::Respond { block } if block >= self.shape.blocks => Err(Refused::NoBlock),
            Step::Ask { core, work } => self.find_ask(core, work),
            Step::Order { core } => self.find_order(core),
            Step::Respond { block } => self.find_respond(block),
        }
    }

    fn find_ask(&self, core: u32, work: Work) -> Result<Plan, Refused> {
        let found = self.lines.place_of(core, work.block);
        let state = found.map_or(CacheState::I, |place| self.lines.at(core, place).state);
        if state == CacheState::I && work.op == Op::Evict {
            return Ok(Plan::Absent);
        }
        let cell = cache_cell(state, event_asked(work.op));
        let next = cell.next;
        match (cell.action, found) {
            (CacheAction::Stall, _) => Err(Refused::Stalled(state)),
            (CacheAction::Hit, Some(place)) => Ok(Plan::Hit { core, work, place, next }),
            (CacheAction::Issue(request), place) => Ok(Plan::Issue { core, work, place, next, request }),
            (CacheAction::Drop, Some(place)) => Ok(Plan::Drop { core, block: work.block, place }),
            _ => unreachable!("no Ask does this"),
        }
    }

    fn find_order(&self, core: u32) -> Result<Plan, Refused> {
        let (request, block) = self.bus.head(core).ok_or(Refused::NothingWaiting)?;
        if self.bus.open(block).is_some() {
            return Err(Refused::BusTaken(block));
        }
        let cell = mem_cell(self.memory.get(block).state, event_at_memory(request));
        let (payload, sender) = match cell.action {
            MemAction::Send(payload) => (payload, None),
            MemAction::None | MemAction::Write => {
                let (payload, sender) = self.lines.sender(core, request, block);
                (payload, Some(sender))
            }
        };
        Ok(Plan::Order { core, request, block, payload, sender, memory: cell.next })
    }

    fn find_respond(&self, block: u32) -> Result<Plan, Refused> {
        let open = self.bus.open(block).ok_or(Refused::NoTransaction)?;
        let state = self.memory.get(block).state;
        if open.request == Request::PutM {
            let memory = mem_cell(state, arrival_at_memory(open.payload));
            return Ok(Plan::Writeback { block, memory });
        }
        let place = self.lines.place_of(open.core, block).expect("the requestor has a line");
        let line = self.lines.at(open.core, place);
        Ok(Plan::Fill {
            block,
            place,
            next: cache_cell(line.state, arrival(open.payload)).next,
            memory: state.waits().then(|| mem_cell(state, arrival_at_memory(open.payload))),
        })
    }

    /// Makes room for all that the step adds.
    #[inline(always)]
    fn make_room(&mut self, plan: &Plan) -> Result<(), TryReserveError> {
        match plan {
            Plan::Absent | Plan::Drop { .. } => Ok(()),
            Plan::Issue { core, place, .. } => {
                if place.is_none() {
                    self.lines.try_reserve(*core)?;
                }
                self.bus.try_reserve(*core)
            }
            Plan::Hit { .. } | Plan::Order { .. } | Plan::Writeback { .. } | Plan::Fill { .. } => self.log.try_reserve(),
        }
    }

    #[inline(always)]
    fn make(&mut self, plan: Plan) -> Reply {
        match plan {
            Plan::Absent => Reply::Absent,
            Plan::Drop { core, block, place } => {
                self.lines.move_to(core, block, place, CacheState::I);
                Reply::Gone
            }
            Plan::Hit { core, work, place, next } => self.hit(core, work, place, next),
            Plan::Issue { core, work, place, next, request } => {
                self.issue(core, work, place, next);
                self.bus.issue(core, request, work.block);
                Reply::Issued(request)
            }
            Plan::Order { core, request, block, payload, sender, memory } => {
                self.order(core, request, block, payload, sender, memory)
            }
            Plan::Writeback { block, memory } => self.write_back(block, memory),
            Plan::Fill { block, place, next, memory } => self.fill(block, place, next, memory),
        }
    }

    fn hit(&mut self, core: u32, work: Work, place: usize, next: CacheState) -> Reply {
        let word = &mut self.lines.at_mut(core, place).words_mut()[work.word as usize];
        if let Op::Store(value) = work.op {
            *word = value;
        }
        let value = *word;
        self.lines.move_to(core, work.block, place, next);
        let load = work.op == Op::Load;
        let did = Did { number: self.log.count(core), core, block: work.block, word: work.word, load, hit: true, value };
        self.log.push(Item::Did(did));
        if load {
            Reply::Hit(value)
        } else {
            Reply::StoreHit
        }
    }

    /// The operation waits in the core's line, which an eviction's does not.
    fn issue(&mut self, core: u32, work: Work, place: Option<usize>, next: CacheState) {
        let waiting = (work.op != Op::Evict).then_some(work.op);
        let Some(place) = place else {
            let line = Line { state: next, word: work.word, waiting, kept: None };
            return self.lines.put(core, work.block, line);
        };
        let line = self.lines.at_mut(core, place);
        line.word = work.word;
        line.waiting = waiting;
        self.lines.move_to(core, work.block, place, next);
    }

    /// Each core and memory take their rows for the core's oldest request, and its transaction opens.
    fn order(
        &mut self,
        core: u32,
        request: Request,
        block: u32,
        payload: Payload,
        sender: Option<Sender>,
        memory: MemState,
    ) -> Reply {
        let held = self.memory.get_mut(block);
        held.state = memory;
        let value = match sender {
            _ if !payload.carries_value() => [0; N],
            Some(Sender { core, place }) => *self.lines.at(core, place).words(),
            None => held.value,
        };
        let from = sender.map(|sender| sender.core);
        self.lines.take_rows(core, request, block);
        self.bus.start(block, Open { core, request, payload, value, from });
        self.log.push(Item::Sent { core, request, block });
        Reply::Ordered(request)
    }

    fn write_back(&mut self, block: u32, memory: MemCell) -> Reply {
        let came = self.arrive(block, Some(memory));
        self.bus.finish(block);
        self.log.push(Item::Came(came, None));
        Reply::Came { payload: came.payload, from: came.from, did: None }
    }

    fn fill(&mut self, block: u32, place: usize, next: CacheState, memory: Option<MemCell>) -> Reply {
        let came = self.arrive(block, memory);
        let core = came.core;
        let open = self.bus.open(block).expect("a transaction is open");
        let line = self.lines.at_mut(core, place);
        let word = line.word;
        let waiting = line.waiting.take();
        let words = line.kept.insert(open.value);
        if let Some(Op::Store(value)) = waiting {
            words[word as usize] = value;
        }
        let did = Did {
            number: self.log.count(core),
            core,
            block,
            word,
            load: waiting == Some(Op::Load),
            hit: false,
            value: words[word as usize],
        };
        self.lines.move_to(core, block, place, next);
        self.bus.finish(block);
        self.log.push(Item::Came(came, Some(did)));
        Reply::Came { payload: came.payload, from: came.from, did: Some(did) }
    }

    /// Memory takes its row for the message of the block's transaction, where it has one.
    fn arrive(&mut self, block: u32, memory: Option<MemCell>) -> Came {
        let open = self.bus.open(block).expect("a transaction is open");
        if let Some(cell) = memory {
            let held = self.memory.get_mut(block);
            held.state = cell.next;
            if let MemAction::Write = cell.action {
                held.value = open.value;
            }
        }
        Came { core: open.core, request: open.request, block, from: open.from, payload: open.payload }
    }
}
