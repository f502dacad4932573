//! The machine: of each block that was asked for its owner, its sharers, memory's state, the open transaction and the cores' states.

use crate::text::Output;
use crate::Shape;
use std::collections::VecDeque;
use std::io::{self, Write};

#[derive(Clone, Copy, PartialEq, Eq)]
pub enum Protocol {
    Msi,
    Mesi,
}

#[derive(Clone, Copy)]
pub enum Op {
    Load,
    Store(u64),
    Evict,
}

#[derive(Clone, Copy)]
pub enum Step {
    Ask { core: u32, block: u32, word: u32, op: Op },
    Order { core: u32 },
    Respond { block: u32 },
}

/// A cache's state of one block.
#[derive(Clone, Copy, PartialEq, Eq)]
#[repr(u8)]
pub enum Cache {
    I,
    IsAd,
    IsD,
    ImAd,
    ImD,
    S,
    SmAd,
    SmD,
    E,
    M,
    EiA,
    MiA,
    IiA,
}

/// Memory's state of one block: four of MSI, then six of MESI.
#[derive(Clone, Copy)]
#[repr(u8)]
enum Memory {
    IorS,
    M,
    IorSD,
    MD,
    I,
    S,
    EorM,
    ID,
    SD,
    EorMD,
}

#[derive(Clone, Copy, PartialEq, Eq)]
pub enum Request {
    GetS,
    GetM,
    PutM,
}

#[derive(Clone, Copy, PartialEq, Eq)]
pub enum Payload {
    Data,
    DataE,
    NoData,
    NoDataE,
}

#[derive(Clone, Copy)]
pub enum Performed {
    Load(u64),
    Store(u64),
}

/// Who sends the payload: a core, or memory where there is none.
pub type Sender = Option<u32>;

#[derive(Clone, Copy)]
pub enum Reply {
    Hit(u64),
    StoreHit,
    Issued(Request),
    Gone,
    Absent,
    Ordered(Request),
    Came(Payload, Sender, Option<Performed>),
    Stalled(Cache),
    NothingWaiting,
    BusTaken(u32),
    NoTransaction,
}

impl Cache {
    /// The request of this state waits for its Order.
    fn waits(self) -> bool {
        matches!(
            self,
            Cache::IsAd | Cache::ImAd | Cache::SmAd | Cache::EiA | Cache::MiA | Cache::IiA
        )
    }
}

impl Memory {
    /// The next state at a request that is ordered, and what memory sends, if it does.
    fn at_order(self, request: Request) -> (Memory, Option<Payload>) {
        use Memory::*;
        use Payload::{Data, DataE};
        use Request::{GetM, GetS, PutM};
        match (self, request) {
            (IorS, GetS) => (IorS, Some(Data)),
            (IorS, GetM) => (M, Some(Data)),
            (IorS, PutM) => (IorSD, None),
            (M, GetS) => (IorSD, None),
            (M, GetM) => (M, None),
            (M, PutM) => (MD, None),
            (I, GetS) => (EorM, Some(DataE)),
            (I, GetM) => (EorM, Some(Data)),
            (I, PutM) => (ID, None),
            (S, GetS) => (S, Some(Data)),
            (S, GetM) => (EorM, Some(Data)),
            (S, PutM) => (SD, None),
            (EorM, GetS) => (SD, None),
            (EorM, GetM) => (EorM, None),
            (EorM, PutM) => (EorMD, None),
            (IorSD | MD | ID | SD | EorMD, _) => unreachable!("the block has an open transaction"),
        }
    }

    /// The next state at the response.
    fn at_response(self, payload: Payload) -> Memory {
        use Memory::*;
        use Payload::{Data, NoData, NoDataE};
        match (self, payload) {
            (IorSD, Data | NoData) | (MD, Data) => IorS,
            (MD, NoData) => M,
            (ID, NoData) => I,
            (SD, Data | NoData) => S,
            (EorMD, Data | NoDataE) => I,
            (EorMD, NoData) => EorM,
            (IorSD | MD | ID | SD | EorMD, _) => unreachable!("no such payload is sent here"),
            (state, _) => state,
        }
    }
}

#[derive(Clone, Copy)]
struct Transaction {
    core: u32,
    sender: Sender,
    request: Request,
    payload: Payload,
    waiting: Waiting,
}

/// The word that an operation is of, and what it stores if it is a store.
#[derive(Clone, Copy, Default)]
struct Waiting {
    word: u32,
    storing: u64,
}

/// A bit for each core.
type Cores = [u64; 4];

struct Block<const W: usize> {
    memory: Memory,
    open: Option<Transaction>,
    /// The core in E, M, EI_A or MI_A.
    owner: Option<u32>,
    /// The cores in S or SM_AD.
    sharers: Cores,
    /// The last value stored in each word, which every reader and every payload with data holds.
    values: [u64; W],
    mentioned: bool,
}

fn set(cores: &mut Cores, core: u32) {
    cores[core as usize / 64] |= 1 << (core % 64);
}

fn unset(cores: &mut Cores, core: u32) {
    cores[core as usize / 64] &= !(1 << (core % 64));
}

/// The counts of the history, and the blocks that it mentions, the first one first.
#[derive(Default)]
pub struct Report {
    loads: u64,
    load_hits: u64,
    stores: u64,
    store_hits: u64,
    get_s: u64,
    get_m: u64,
    put_m: u64,
    from_memory: u64,
    from_caches: u64,
    writebacks: u64,
    clean: u64,
    stale: u64,
    mentioned: Vec<u32>,
    /// Of these blocks, as many of each as it has words.
    values: Vec<u64>,
}

impl Report {
    pub fn write(&self, words: usize, out: &mut Output<impl Write>) -> io::Result<()> {
        out.counts(&[("loads ", self.loads), (" hits ", self.load_hits)])?;
        out.counts(&[("stores ", self.stores), (" hits ", self.store_hits)])?;
        out.counts(&[("GetS ", self.get_s), (" GetM ", self.get_m), (" PutM ", self.put_m)])?;
        out.counts(&[("from memory ", self.from_memory), (" from caches ", self.from_caches)])?;
        out.counts(&[("writebacks ", self.writebacks), (" clean ", self.clean), (" stale ", self.stale)])?;
        for (&block, values) in self.mentioned.iter().zip(self.values.chunks(words)) {
            out.values(block, values)?;
        }
        Ok(())
    }
}

/// A machine whose blocks have `W` words.
pub struct Machine<const W: usize> {
    cores: usize,
    first: Memory,
    /// By block, one more than its place among the blocks asked for; 0 before its first Ask.
    places: Vec<u32>,
    blocks: Vec<Block<W>>,
    /// By place and core.
    states: Vec<Cache>,
    /// By core, the blocks whose requests wait and for what, the oldest first.
    queues: Vec<VecDeque<(u32, Waiting)>>,
    pub report: Report,
}

impl<const W: usize> Machine<W> {
    pub fn reset(shape: Shape) -> Machine<W> {
        Machine {
            cores: shape.cores as usize,
            first: match shape.protocol {
                Protocol::Msi => Memory::IorS,
                Protocol::Mesi => Memory::I,
            },
            places: vec![0; shape.blocks as usize],
            blocks: Vec::new(),
            states: Vec::new(),
            queues: (0..shape.cores).map(|_| VecDeque::new()).collect(),
            report: Report::default(),
        }
    }

    pub fn step(&mut self, step: Step) -> Reply {
        match step {
            Step::Ask { core, block, word, op } => self.ask(core, block, word, op),
            Step::Order { core } => self.order(core),
            Step::Respond { block } => self.respond(block),
        }
    }

    fn place(&self, block: u32) -> Option<usize> {
        (self.places[block as usize] as usize).checked_sub(1)
    }

    fn place_made(&mut self, block: u32) -> usize {
        self.place(block).unwrap_or_else(|| {
            let place = self.blocks.len();
            self.blocks.push(Block {
                memory: self.first,
                open: None,
                owner: None,
                sharers: [0; 4],
                values: [0; W],
                mentioned: false,
            });
            self.states.resize(self.states.len() + self.cores, Cache::I);
            self.places[block as usize] = place as u32 + 1;
            place
        })
    }

    fn mention(&mut self, block: u32, place: usize) {
        let at = &mut self.blocks[place];
        if !at.mentioned {
            at.mentioned = true;
            self.report.mentioned.push(block);
        }
    }

    /// Whether a request of the core waits for its Order on the block, and the core of the open transaction.
    pub fn stands(&self, core: u32, block: u32) -> (bool, Option<u32>) {
        self.place(block).map_or((false, None), |place| {
            let state = self.states[place * self.cores + core as usize];
            (state.waits(), self.blocks[place].open.map(|open| open.core))
        })
    }

    fn issue(&mut self, core: u32, block: u32, waiting: Waiting, request: Request) -> Reply {
        self.queues[core as usize].push_back((block, waiting));
        Reply::Issued(request)
    }

    fn ask(&mut self, core: u32, block: u32, word: u32, op: Op) -> Reply {
        use Cache::*;
        let place = self.place_made(block);
        let at = place * self.cores + core as usize;
        let state = self.states[at];
        let (next, storing, request) = match (op, state) {
            (Op::Load, I) => (IsAd, 0, Request::GetS),
            (Op::Load, S | SmAd | SmD | E | M | EiA | MiA) => {
                self.mention(block, place);
                self.report.loads += 1;
                self.report.load_hits += 1;
                return Reply::Hit(self.blocks[place].values[word as usize]);
            }
            (Op::Store(value), I) => (ImAd, value, Request::GetM),
            (Op::Store(value), S) => (SmAd, value, Request::GetM),
            (Op::Store(value), E | M | EiA | MiA) => {
                self.states[at] = if matches!(state, E | M) { M } else { MiA };
                self.blocks[place].values[word as usize] = value;
                self.mention(block, place);
                self.report.stores += 1;
                self.report.store_hits += 1;
                return Reply::StoreHit;
            }
            (Op::Evict, I) => return Reply::Absent,
            (Op::Evict, S) => {
                unset(&mut self.blocks[place].sharers, core);
                self.states[at] = I;
                return Reply::Gone;
            }
            (Op::Evict, E) => (EiA, 0, Request::PutM),
            (Op::Evict, M) => (MiA, 0, Request::PutM),
            _ => return Reply::Stalled(state),
        };
        self.states[at] = next;
        self.issue(core, block, Waiting { word, storing }, request)
    }

    /// The owner gives the block up to a GetS or a GetM, and sends its data.
    fn give_up(&mut self, place: usize, owner: u32, request: Request) {
        let at = place * self.cores + owner as usize;
        let block = &mut self.blocks[place];
        block.owner = None;
        self.states[at] = match (self.states[at], request) {
            (Cache::E | Cache::M, Request::GetS) => {
                set(&mut block.sharers, owner);
                Cache::S
            }
            (Cache::E | Cache::M, _) => Cache::I,
            _ => Cache::IiA,
        };
    }

    /// Every sharer loses its copy.
    fn invalidate(&mut self, place: usize) {
        let sharers = std::mem::take(&mut self.blocks[place].sharers);
        let states = &mut self.states[place * self.cores..][..self.cores];
        for (word, mut left) in sharers.into_iter().enumerate() {
            while left != 0 {
                let state = &mut states[word * 64 + left.trailing_zeros() as usize];
                *state = if *state == Cache::S { Cache::I } else { Cache::ImAd };
                left &= left - 1;
            }
        }
    }

    fn order(&mut self, core: u32) -> Reply {
        let Some(&(block, waiting)) = self.queues[core as usize].front() else {
            return Reply::NothingWaiting;
        };
        let place = self.places[block as usize] as usize - 1;
        if self.blocks[place].open.is_some() {
            return Reply::BusTaken(block);
        }
        self.queues[core as usize].pop_front();

        let at = place * self.cores + core as usize;
        let (request, after, mut payload) = match self.states[at] {
            Cache::IsAd => (Request::GetS, Cache::IsD, Payload::Data),
            Cache::ImAd => (Request::GetM, Cache::ImD, Payload::Data),
            Cache::SmAd => (Request::GetM, Cache::SmD, Payload::Data),
            Cache::MiA => (Request::PutM, Cache::I, Payload::Data),
            Cache::EiA => (Request::PutM, Cache::I, Payload::NoDataE),
            Cache::IiA => (Request::PutM, Cache::I, Payload::NoData),
            _ => unreachable!("a queue holds only requests that wait"),
        };
        let (memory, sent) = self.blocks[place].memory.at_order(request);
        let mut sender = if sent.is_some() { None } else { Some(core) };
        payload = sent.unwrap_or(payload);
        match request {
            Request::PutM if payload != Payload::NoData => self.blocks[place].owner = None,
            Request::PutM => {}
            Request::GetS | Request::GetM => {
                if let Some(owner) = self.blocks[place].owner {
                    sender = Some(owner);
                    self.give_up(place, owner, request);
                }
                if request == Request::GetM {
                    self.invalidate(place);
                }
            }
        }
        self.states[at] = after;
        let entry = &mut self.blocks[place];
        entry.memory = memory;
        entry.open = Some(Transaction {
            core,
            sender,
            request,
            payload,
            waiting,
        });
        self.mention(block, place);
        match request {
            Request::GetS => self.report.get_s += 1,
            Request::GetM => self.report.get_m += 1,
            Request::PutM => self.report.put_m += 1,
        }
        Reply::Ordered(request)
    }

    fn count_response(&mut self, open: Transaction) {
        let count = match (open.request, open.payload, open.sender) {
            (Request::PutM, Payload::NoData, _) => &mut self.report.stale,
            (Request::PutM, Payload::NoDataE, _) => &mut self.report.clean,
            (Request::PutM, _, _) => &mut self.report.writebacks,
            (_, _, None) => &mut self.report.from_memory,
            (_, _, Some(_)) => &mut self.report.from_caches,
        };
        *count += 1;
    }

    fn respond(&mut self, block: u32) -> Reply {
        let Some(place) = self.place(block) else {
            return Reply::NoTransaction;
        };
        let entry = &mut self.blocks[place];
        let Some(open) = entry.open.take() else {
            return Reply::NoTransaction;
        };
        entry.memory = entry.memory.at_response(open.payload);
        let at = place * self.cores + open.core as usize;
        let Waiting { word, storing } = open.waiting;
        let value = &mut entry.values[word as usize];
        let performed = match (open.request, open.payload) {
            (Request::PutM, _) => None,
            (Request::GetS, Payload::DataE) => {
                entry.owner = Some(open.core);
                self.states[at] = Cache::E;
                Some(Performed::Load(*value))
            }
            (Request::GetS, _) => {
                set(&mut entry.sharers, open.core);
                self.states[at] = Cache::S;
                Some(Performed::Load(*value))
            }
            (Request::GetM, _) => {
                entry.owner = Some(open.core);
                *value = storing;
                self.states[at] = Cache::M;
                Some(Performed::Store(storing))
            }
        };
        match performed {
            Some(Performed::Load(_)) => self.report.loads += 1,
            Some(Performed::Store(_)) => self.report.stores += 1,
            None => {}
        }
        self.count_response(open);
        Reply::Came(open.payload, open.sender, performed)
    }

    /// Hands the report the last values of the blocks that it mentions.
    pub fn close(&mut self) {
        for block in &self.report.mentioned {
            let place = self.places[*block as usize] as usize - 1;
            self.report.values.extend_from_slice(&self.blocks[place].values);
        }
    }
}
