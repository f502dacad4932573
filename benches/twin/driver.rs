//! The driver of rows: whose turn it is, and which step the turn takes.

use crate::machine::{Machine, Refused, Reply};
use crate::shape::Shape;
use crate::text::{Row, Step, Work};
use std::collections::VecDeque;

/// A core's rows that are left, and the work under way, which may be over.
#[derive(Default)]
struct Lane {
    rows: VecDeque<Work>,
    work: Option<Work>,
}

/// A machine whose cores do their rows one at a time, a step a turn.
pub struct Driver<const N: usize> {
    machine: Machine<N>,
    lanes: Vec<Lane>,
    turns: VecDeque<u32>,
}

impl<const N: usize> Driver<N> {
    /// Deals the rows to the cores; they are let go before the first step.
    pub fn new(shape: Shape, rows: Vec<Row>) -> Driver<N> {
        let mut lanes: Vec<Lane> = (0..shape.cores).map(|_| Lane::default()).collect();
        for row in rows {
            lanes[row.core as usize].rows.push_back(row.work(shape));
        }
        Driver { machine: Machine::reset(shape), lanes, turns: (0..shape.cores).collect() }
    }

    pub fn into_machine(self) -> Machine<N> {
        self.machine
    }

    /// Takes the next step; `None` once every row is done.
    pub fn next(&mut self) -> Result<Option<(Step, Reply)>, Refused> {
        while let Some(core) = self.turns.pop_front() {
            // A core with nothing left to do has no more turns.
            if let Some(step) = self.turn(core) {
                self.turns.push_back(core);
                let reply = self.machine.step(step)?;
                return Ok(Some((step, reply)));
            }
        }
        Ok(None)
    }

    /// The next step of the work under way, or the first one of the core's next row.
    fn turn(&mut self, core: u32) -> Option<Step> {
        let lane = &mut self.lanes[core as usize];
        let continued = lane.work.and_then(|work| self.machine.turn_step(core, work.block));
        continued.or_else(|| {
            lane.work = lane.rows.pop_front();
            lane.work.map(|work| Step::Ask { core, work })
        })
    }
}
