//! Rows: each core does its own in a thread of its own, one step at a time, on a machine behind a `Mutex`.

use crate::machine::{Machine, Op, Performed, Reply, Step};
use crate::text::{Output, Records};
use crate::Shape;
use std::io::{self, Write};
use std::sync::{Mutex, MutexGuard, PoisonError};
use std::thread;

/// A row's block, word and operation.
type Row = (u32, u32, Op);

/// What lies behind the lock: the machine, the steps that it has taken, and what each core's last miss loaded or stored.
struct Shared<const W: usize> {
    machine: Machine<W>,
    steps: Vec<Step>,
    performed: Vec<Option<Performed>>,
}

impl<const W: usize> Shared<W> {
    fn take(&mut self, step: Step) -> Reply {
        self.steps.push(step);
        self.machine.step(step)
    }

    /// A turn of a core whose row is asked for: at most one step, and whether the row is done.
    fn go_on(&mut self, core: u32, block: u32) -> bool {
        match self.machine.stands(core, block) {
            (true, None) => {
                self.take(Step::Order { core });
                false
            }
            (waits, Some(open)) if waits || open == core => {
                if let Reply::Came(_, _, performed) = self.take(Step::Respond { block }) {
                    self.performed[open as usize] = performed;
                }
                !waits
            }
            _ => true,
        }
    }
}

/// One core's share of the lock.
struct Seat<'a, const W: usize> {
    core: u32,
    shared: &'a Mutex<Shared<W>>,
}

impl<const W: usize> Seat<'_, W> {
    fn lock(&self) -> MutexGuard<'_, Shared<W>> {
        self.shared.lock().unwrap_or_else(PoisonError::into_inner)
    }

    /// Does a row, and gives what it loaded or stored. The lock is taken anew for each step.
    fn perform(&self, (block, word, op): Row) -> Option<u64> {
        let core = self.core;
        let reply = self.lock().take(Step::Ask { core, block, word, op });
        match (reply, op) {
            (Reply::Hit(value), _) => Some(value),
            (Reply::StoreHit, Op::Store(value)) => Some(value),
            (Reply::Issued(_), _) => self.finish(block),
            _ => None,
        }
    }

    /// Takes turns until the row is done, and gives what it loaded or stored.
    fn finish(&self, block: u32) -> Option<u64> {
        loop {
            let mut shared = self.lock();
            if shared.go_on(self.core, block) {
                return match shared.performed[self.core as usize]? {
                    Performed::Load(value) | Performed::Store(value) => Some(value),
                };
            }
        }
    }

    /// Does all rows, and gives what they loaded and stored.
    fn run(&self, rows: Vec<Row>) -> Vec<u64> {
        rows.into_iter().filter_map(|row| self.perform(row)).collect()
    }
}

/// Each core's rows.
fn deal(shape: Shape, rows: Records) -> Vec<Vec<Row>> {
    let mut dealt = vec![Vec::new(); shape.cores as usize];
    for row in rows.iter() {
        if let Step::Ask { core, block, word, op } = row {
            dealt[core as usize].push((block, word, op));
        }
    }
    dealt
}

/// Lets each core do its rows in a thread of its own, and writes the steps that were taken as a text.
pub fn threads<const W: usize>(
    machine: Machine<W>,
    shape: Shape,
    rows: Records,
    out: &mut Output<impl Write>,
) -> io::Result<()> {
    let shared = Mutex::new(Shared {
        machine,
        steps: Vec::new(),
        performed: vec![None; shape.cores as usize],
    });
    thread::scope(|scope| {
        for (core, rows) in (0..).zip(deal(shape, rows)) {
            let seat = Seat { core, shared: &shared };
            scope.spawn(move || seat.run(rows));
        }
    });
    let shared = shared.into_inner().unwrap_or_else(PoisonError::into_inner);
    out.heading(shape)?;
    for step in shared.steps {
        out.step(step)?;
    }
    Ok(())
}
