//! The controllers' tables, which docs/PROTOCOL.md explains.

use crate::shape::Protocol;
use crate::text::Op;

#[derive(Clone, Copy, PartialEq, Eq)]
pub enum CacheState {
    I,
    IsAd,
    IsD,
    ImAd,
    ImD,
    S,
    SmAd,
    SmD,
    E,
    M,
    EiA,
    MiA,
    IiA,
}

#[derive(Clone, Copy)]
pub enum CacheEvent {
    Load,
    Store,
    Evict,
    OwnGetS,
    OwnGetM,
    OwnPutM,
    OtherGetS,
    OtherGetM,
    OtherPutM,
    Data,
    DataE,
}

#[derive(Clone, Copy)]
pub enum MemState {
    IorS,
    M,
    IorSD,
    MD,
    I,
    S,
    EorM,
    ID,
    SD,
    EorMD,
}

#[derive(Clone, Copy)]
pub enum MemEvent {
    GetS,
    GetM,
    PutM,
    Data,
    NoData,
    NoDataE,
}

#[derive(Clone, Copy, PartialEq, Eq)]
pub enum Request {
    GetS,
    GetM,
    PutM,
}

#[derive(Clone, Copy, PartialEq, Eq)]
pub enum Payload {
    Data,
    DataE,
    NoData,
    NoDataE,
}

#[derive(Clone, Copy)]
pub enum CacheAction {
    None,
    Hit,
    Stall,
    Issue(Request),
    Drop,
    Fill,
    Send(Payload),
}

#[derive(Clone, Copy)]
pub enum MemAction {
    None,
    Send(Payload),
    Write,
}

#[derive(Clone, Copy)]
pub struct CacheCell {
    pub action: CacheAction,
    pub next: CacheState,
}

#[derive(Clone, Copy)]
pub struct MemCell {
    pub action: MemAction,
    pub next: MemState,
}

/// Both protocols' rows, those of `E` and `EiA` and the column of `DataE` being MESI's alone. `XX` is a pair that cannot be.
#[rustfmt::skip]
static CACHE: [[Option<CacheCell>; 11]; 13] = {
    use CacheState::*;
    use Payload::{Data, NoData, NoDataE};
    use Request::{GetM, GetS, PutM};
    const XX: Option<CacheCell> = None;
    const fn cell(action: CacheAction, next: CacheState) -> Option<CacheCell> {
        Some(CacheCell { action, next })
    }
    const fn to(next: CacheState) -> Option<CacheCell> { cell(CacheAction::None, next) }
    const fn hit(next: CacheState) -> Option<CacheCell> { cell(CacheAction::Hit, next) }
    const fn stall(next: CacheState) -> Option<CacheCell> { cell(CacheAction::Stall, next) }
    const fn issue(request: Request, next: CacheState) -> Option<CacheCell> { cell(CacheAction::Issue(request), next) }
    const fn fill(next: CacheState) -> Option<CacheCell> { cell(CacheAction::Fill, next) }
    const fn send(payload: Payload, next: CacheState) -> Option<CacheCell> { cell(CacheAction::Send(payload), next) }
    const DROP: Option<CacheCell> = cell(CacheAction::Drop, I);
    [
        // Load             Store              Evict             OwnGetS  OwnGetM  OwnPutM           OtherGetS        OtherGetM        OtherPutM  Data      DataE
        [issue(GetS, IsAd), issue(GetM, ImAd), XX,               XX,      XX,      XX,               to(I),           to(I),           to(I),     XX,       XX],
        [stall(IsAd),       stall(IsAd),       stall(IsAd),      to(IsD), XX,      XX,               to(IsAd),        to(IsAd),        to(IsAd),  XX,       XX],
        [stall(IsD),        stall(IsD),        stall(IsD),       XX,      XX,      XX,               XX,              XX,              XX,        fill(S),  fill(E)],
        [stall(ImAd),       stall(ImAd),       stall(ImAd),      XX,      to(ImD), XX,               to(ImAd),        to(ImAd),        to(ImAd),  XX,       XX],
        [stall(ImD),        stall(ImD),        stall(ImD),       XX,      XX,      XX,               XX,              XX,              XX,        fill(M),  XX],
        [hit(S),            issue(GetM, SmAd), DROP,             XX,      XX,      XX,               to(S),           to(I),           to(S),     XX,       XX],
        [hit(SmAd),         stall(SmAd),       stall(SmAd),      XX,      to(SmD), XX,               to(SmAd),        to(ImAd),        to(SmAd),  XX,       XX],
        [hit(SmD),          stall(SmD),        stall(SmD),       XX,      XX,      XX,               XX,              XX,              XX,        fill(M),  XX],
        [hit(E),            hit(M),            issue(PutM, EiA), XX,      XX,      XX,               send(Data, S),   send(Data, I),   to(E),     XX,       XX],
        [hit(M),            hit(M),            issue(PutM, MiA), XX,      XX,      XX,               send(Data, S),   send(Data, I),   to(M),     XX,       XX],
        [hit(EiA),          hit(MiA),          stall(EiA),       XX,      XX,      send(NoDataE, I), send(Data, IiA), send(Data, IiA), to(EiA),   XX,       XX],
        [hit(MiA),          hit(MiA),          stall(MiA),       XX,      XX,      send(Data, I),    send(Data, IiA), send(Data, IiA), to(MiA),   XX,       XX],
        [stall(IiA),        stall(IiA),        stall(IiA),       XX,      XX,      send(NoData, I),  to(IiA),         to(IiA),         to(IiA),   XX,       XX],
    ]
};

/// Memory's rows: four of MSI, then six of MESI.
#[rustfmt::skip]
static MEMORY: [[Option<MemCell>; 6]; 10] = {
    use MemState::*;
    use Payload::{Data, DataE};
    const XX: Option<MemCell> = None;
    const fn cell(action: MemAction, next: MemState) -> Option<MemCell> {
        Some(MemCell { action, next })
    }
    const fn to(next: MemState) -> Option<MemCell> { cell(MemAction::None, next) }
    const fn send(payload: Payload, next: MemState) -> Option<MemCell> { cell(MemAction::Send(payload), next) }
    const fn write(next: MemState) -> Option<MemCell> { cell(MemAction::Write, next) }
    [
        // GetS             GetM              PutM       Data         NoData    NoDataE
        [send(Data, IorS),  send(Data, M),    to(IorSD), XX,          XX,       XX],
        [to(IorSD),         to(M),            to(MD),    XX,          XX,       XX],
        [XX,                XX,               XX,        write(IorS), to(IorS), XX],
        [XX,                XX,               XX,        write(IorS), to(M),    XX],
        [send(DataE, EorM), send(Data, EorM), to(ID),    XX,          XX,       XX],
        [send(Data, S),     send(Data, EorM), to(SD),    XX,          XX,       XX],
        [to(SD),            to(EorM),         to(EorMD), XX,          XX,       XX],
        [XX,                XX,               XX,        XX,          to(I),    XX],
        [XX,                XX,               XX,        write(S),    to(S),    XX],
        [XX,                XX,               XX,        write(I),    to(EorM), to(I)],
    ]
};

pub fn cache_cell(state: CacheState, event: CacheEvent) -> CacheCell {
    CACHE[state as usize][event as usize].expect("no cache meets this event in this state")
}

pub fn mem_cell(state: MemState, event: MemEvent) -> MemCell {
    MEMORY[state as usize][event as usize].expect("memory does not meet this event in this state")
}

impl CacheState {
    /// Whether the core may write.
    pub fn is_owner(self) -> bool {
        use CacheState::*;
        matches!(self, E | M | EiA | MiA)
    }

    /// Whether the core keeps a value.
    pub fn keeps(self) -> bool {
        use CacheState::*;
        matches!(self, S | SmAd | SmD | E | M | EiA | MiA)
    }

    /// Whether a request waits to be ordered.
    pub fn waits(self) -> bool {
        use CacheState::*;
        matches!(self, IsAd | ImAd | SmAd | EiA | MiA | IiA)
    }
}

impl MemState {
    pub fn at_reset(protocol: Protocol) -> MemState {
        match protocol {
            Protocol::Msi => MemState::IorS,
            Protocol::Mesi => MemState::I,
        }
    }

    /// Whether memory waits for a message.
    pub fn waits(self) -> bool {
        use MemState::*;
        matches!(self, IorSD | MD | ID | SD | EorMD)
    }
}

impl Payload {
    pub fn carries_value(self) -> bool {
        matches!(self, Payload::Data | Payload::DataE)
    }
}

pub fn event_asked(op: Op) -> CacheEvent {
    match op {
        Op::Load => CacheEvent::Load,
        Op::Store(_) => CacheEvent::Store,
        Op::Evict => CacheEvent::Evict,
    }
}

/// What a core sees of a request that is ordered.
pub fn event_seen(core: u32, requestor: u32, request: Request) -> CacheEvent {
    match (core == requestor, request) {
        (true, Request::GetS) => CacheEvent::OwnGetS,
        (true, Request::GetM) => CacheEvent::OwnGetM,
        (true, Request::PutM) => CacheEvent::OwnPutM,
        (false, Request::GetS) => CacheEvent::OtherGetS,
        (false, Request::GetM) => CacheEvent::OtherGetM,
        (false, Request::PutM) => CacheEvent::OtherPutM,
    }
}

pub fn event_at_memory(request: Request) -> MemEvent {
    match request {
        Request::GetS => MemEvent::GetS,
        Request::GetM => MemEvent::GetM,
        Request::PutM => MemEvent::PutM,
    }
}

/// What a response is to its requestor.
pub fn arrival(payload: Payload) -> CacheEvent {
    match payload {
        Payload::Data => CacheEvent::Data,
        Payload::DataE => CacheEvent::DataE,
        Payload::NoData | Payload::NoDataE => unreachable!("a GetS or a GetM is answered with data"),
    }
}

/// What a response is to memory.
pub fn arrival_at_memory(payload: Payload) -> MemEvent {
    match payload {
        Payload::Data => MemEvent::Data,
        Payload::NoData => MemEvent::NoData,
        Payload::NoDataE => MemEvent::NoDataE,
        Payload::DataE => unreachable!("only memory sends DataE"),
    }
}
