//! Rows: each core does its own in turn, one step a turn, by rising number.

use crate::machine::{Machine, Op, Reply, Step};
use crate::text::{Output, Records};
use crate::Shape;
use std::io::{self, Write};

/// A core's rows that are not asked for yet, block, word and operation, the last one first, and the block of the one under way.
struct Lane {
    core: u32,
    left: Vec<(u32, u32, Op)>,
    asked: Option<u32>,
}

impl Lane {
    /// The step of the core's next turn, if it has anything left to do.
    fn turn<const W: usize>(&mut self, machine: &Machine<W>) -> Option<Step> {
        if let Some(block) = self.asked {
            match machine.stands(self.core, block) {
                (true, None) => return Some(Step::Order { core: self.core }),
                (true, Some(_)) => return Some(Step::Respond { block }),
                (false, open) => {
                    self.asked = None;
                    if open == Some(self.core) {
                        return Some(Step::Respond { block });
                    }
                }
            }
        }
        let (block, word, op) = self.left.pop()?;
        Some(Step::Ask {
            core: self.core,
            block,
            word,
            op,
        })
    }
}

pub fn run<const W: usize>(
    machine: &mut Machine<W>,
    shape: Shape,
    rows: Records,
    out: &mut Output<impl Write>,
) -> io::Result<()> {
    let mut lanes: Vec<Lane> = (0..shape.cores)
        .map(|core| Lane {
            core,
            left: Vec::new(),
            asked: None,
        })
        .collect();
    for row in rows.iter() {
        if let Step::Ask { core, block, word, op } = row {
            lanes[core as usize].left.push((block, word, op));
        }
    }
    drop(rows);
    for lane in &mut lanes {
        lane.left.reverse();
    }
    while !lanes.is_empty() {
        for lane in &mut lanes {
            if let Some(step) = lane.turn(machine) {
                let reply = machine.step(step);
                if let (Step::Ask { block, .. }, Reply::Issued(_)) = (step, reply) {
                    lane.asked = Some(block);
                }
                out.line(step, reply)?;
            }
        }
        lanes.retain(|lane| lane.asked.is_some() || !lane.left.is_empty());
    }
    Ok(())
}
