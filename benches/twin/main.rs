//! Snoop's design in plain Rust: what `snoop steps` and `snoop run` do, with Snoop's data structures and without contracts.
//!
//! It takes the same options, `twin steps|run [--serial] --protocol msi|mesi --cores C --blocks B --block-bytes N --words W`, and
//! writes the same output for a valid text. A fault of the options, the shape or the text ends it with status 2, a line on standard
//! error and nothing on standard output; a failed read or write, or memory that is refused, with status 2 too. docs/ARCHITECTURE.md
//! describes the design, docs/PROTOCOL.md the rules, docs/TEXTS.md the texts.

mod blocks;
mod bus;
mod csv;
mod driver;
mod history;
mod index_map;
mod lines;
mod machine;
mod output;
mod packed;
mod rules;
mod shape;
mod text;

use csv::Position;
use driver::Driver;
use machine::{Machine, Refused};
use output::Output;
use packed::StepQueue;
use shape::{Protocol, Shape};
use std::env;
use std::fmt::{self, Display};
use std::io::{self, StdoutLock};
use std::process::ExitCode;
use text::Row;

#[derive(Clone, Copy)]
enum Command {
    Steps,
    Run,
    Serial,
}

/// What was read of a text for its command.
enum Input {
    Steps(StepQueue),
    Run(Vec<Row>),
    Serial(Vec<Row>),
}

pub enum Fault {
    CommandLine,
    Shape,
    Record(Position),
    Memory,
    Io(io::Error),
}

impl From<io::Error> for Fault {
    fn from(error: io::Error) -> Fault {
        Fault::Io(error)
    }
}

impl From<Refused> for Fault {
    /// Of the causes that refuse a step, memory alone ends the program.
    fn from(_: Refused) -> Fault {
        Fault::Memory
    }
}

impl Display for Fault {
    fn fmt(&self, f: &mut fmt::Formatter) -> fmt::Result {
        match self {
            Fault::CommandLine => f.write_str(
                "use: twin steps|run [--serial] [--protocol msi|mesi] [--cores C] [--blocks B] [--block-bytes N] [--words W]",
            ),
            Fault::Shape => f.write_str("at most 256 cores, 65536 blocks, 2^k <= 4096 bytes and 2^k <= 64 words of 8 bytes each"),
            Fault::Record(Position { record, byte, line }) => {
                write!(f, "record {record}, at byte {byte} in line {line}, is none of this command and machine")
            }
            Fault::Memory => f.write_str("out of memory"),
            Fault::Io(error) => error.fmt(f),
        }
    }
}

fn parse_options(words: impl Iterator<Item = String>) -> Result<(Command, Shape), Fault> {
    let mut words = words.peekable();
    let command = match words.next().as_deref() {
        Some("steps") => Command::Steps,
        Some("run") if words.next_if(|word| word == "--serial").is_some() => Command::Serial,
        Some("run") => Command::Run,
        _ => return Err(Fault::CommandLine),
    };
    let mut protocol = Protocol::Msi;
    let (mut cores, mut blocks, mut block_bytes, mut count) = (2, 4, 64, 1);
    while let Some(option) = words.next() {
        let value = words.next().ok_or(Fault::CommandLine)?;
        let number = value.parse().map_err(|_| Fault::CommandLine);
        match option.as_str() {
            "--protocol" if value == "msi" => protocol = Protocol::Msi,
            "--protocol" if value == "mesi" => protocol = Protocol::Mesi,
            "--cores" => cores = number?,
            "--blocks" => blocks = number?,
            "--block-bytes" => block_bytes = number?,
            "--words" => count = number?,
            _ => return Err(Fault::CommandLine),
        }
    }
    let shape = Shape::new(protocol, cores, blocks, block_bytes, count).ok_or(Fault::Shape)?;
    Ok((command, shape))
}

fn simulate() -> Result<(), Fault> {
    let (command, shape) = parse_options(env::args().skip(1))?;
    let reader = io::stdin().lock();
    let input = match command {
        Command::Steps => Input::Steps(text::read_steps(reader, shape)?),
        Command::Run => Input::Run(text::read_rows(reader, shape)?),
        Command::Serial => Input::Serial(text::read_rows(reader, shape)?),
    };
    match shape.words {
        1 => write_output::<1>(shape, input),
        2 => write_output::<2>(shape, input),
        4 => write_output::<4>(shape, input),
        8 => write_output::<8>(shape, input),
        16 => write_output::<16>(shape, input),
        32 => write_output::<32>(shape, input),
        _ => write_output::<64>(shape, input),
    }
}

/// Takes the steps on a machine at reset whose blocks have `N` words, and writes their lines and the report.
fn write_output<const N: usize>(shape: Shape, input: Input) -> Result<(), Fault> {
    let mut out = Output::new(io::stdout().lock(), shape);
    let machine = match input {
        Input::Steps(steps) => take_steps::<N>(shape, steps, &mut out)?,
        Input::Run(rows) => {
            let mut driver: Driver<N> = Driver::new(shape, rows);
            while let Some((step, reply)) = driver.next()? {
                out.line(step, Ok(reply))?;
            }
            driver.into_machine()
        }
        Input::Serial(rows) => serve_in_order::<N>(shape, &rows, &mut out)?,
    };
    out.report(machine.log())?;
    Ok(())
}

fn take_steps<const N: usize>(shape: Shape, mut steps: StepQueue, out: &mut Output<StdoutLock>) -> Result<Machine<N>, Fault> {
    let mut machine = Machine::reset(shape);
    while let Some(step) = steps.next() {
        let outcome = machine.step(step);
        if matches!(outcome, Err(Refused::NoMemory)) {
            return Err(Fault::Memory);
        }
        out.line(step, outcome)?;
    }
    Ok(machine)
}

/// Serves the rows one after another, each whole before the next one is asked.
fn serve_in_order<const N: usize>(shape: Shape, rows: &[Row], out: &mut Output<StdoutLock>) -> Result<Machine<N>, Fault> {
    let mut machine = Machine::reset(shape);
    for row in rows {
        let work = row.work(shape);
        let mut next = Some(text::Step::Ask { core: row.core, work });
        while let Some(step) = next {
            out.line(step, Ok(machine.step(step)?))?;
            next = machine.turn_step(row.core, work.block);
        }
    }
    Ok(machine)
}

fn main() -> ExitCode {
    match simulate() {
        Ok(()) => ExitCode::SUCCESS,
        Err(fault) => {
            eprintln!("twin: {fault}");
            ExitCode::from(2)
        }
    }
}
