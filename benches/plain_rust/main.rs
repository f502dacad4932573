//! The program that Snoop's speed is compared with: `snoop steps`, `snoop run` and `snoop threads` in plain Rust, without contracts,
//! written to be fast.
//!
//! It takes the same options, `plain steps|run|threads --protocol msi|mesi --cores C --blocks B --block-bytes N --words W`, and for a
//! valid text writes the same output; of quotes it knows those around a whole field. A fault of the options, the shape or the text ends it
//! with status 2, a line on standard error and nothing on standard output; a failed read or write with status 2 too. The rules are
//! in docs/PROTOCOL.md, the texts in docs/TEXTS.md.
//!
//! It keeps what its answers need and no more: of a block the owner, a bit for each sharer and the last value stored in each
//! word, since every reader holds those values; of the history the counts alone.

mod machine;
mod run;
mod text;
mod threads;

use machine::{Machine, Protocol};
use std::env;
use std::fmt::{self, Display};
use std::io::{self, Read};
use std::process::ExitCode;
use text::{Output, Records, Texts};

#[derive(Clone, Copy)]
pub struct Shape {
    pub protocol: Protocol,
    pub cores: u32,
    pub blocks: u32,
    pub block_bytes: u64,
    pub words: u64,
}

#[derive(Clone, Copy)]
enum Command {
    Steps,
    Run,
    Threads,
}

pub enum Fault {
    CommandLine,
    Shape,
    Record(usize),
    Io(io::Error),
}

impl From<io::Error> for Fault {
    fn from(error: io::Error) -> Fault {
        Fault::Io(error)
    }
}

impl Display for Fault {
    fn fmt(&self, f: &mut fmt::Formatter) -> fmt::Result {
        match self {
            Fault::CommandLine => f.write_str(
                "use: plain steps|run|threads [--protocol msi|mesi] [--cores C] [--blocks B] [--block-bytes N] [--words W]",
            ),
            Fault::Shape => f.write_str("at most 256 cores, 65536 blocks, 2^k <= 4096 bytes and 2^k <= 64 words of 8 bytes each"),
            Fault::Record(number) => write!(f, "record {number} is none of this command and machine"),
            Fault::Io(error) => error.fmt(f),
        }
    }
}

fn parse_options(mut words: impl Iterator<Item = String>) -> Result<(Command, Shape), Fault> {
    let command = match words.next().as_deref() {
        Some("steps") => Command::Steps,
        Some("run") => Command::Run,
        Some("threads") => Command::Threads,
        _ => return Err(Fault::CommandLine),
    };
    let mut shape = Shape {
        protocol: Protocol::Msi,
        cores: 2,
        blocks: 4,
        block_bytes: 64,
        words: 1,
    };
    while let Some(option) = words.next() {
        let value = words.next().ok_or(Fault::CommandLine)?;
        let number = value.parse().map_err(|_| Fault::CommandLine);
        match option.as_str() {
            "--protocol" if value == "msi" => shape.protocol = Protocol::Msi,
            "--protocol" if value == "mesi" => shape.protocol = Protocol::Mesi,
            "--cores" => shape.cores = number?,
            "--blocks" => shape.blocks = number?,
            "--block-bytes" => shape.block_bytes = u64::from(number?),
            "--words" => shape.words = u64::from(number?),
            _ => return Err(Fault::CommandLine),
        }
    }
    let bytes_fit = shape.block_bytes.is_power_of_two() && shape.block_bytes <= 4096;
    let words_fit = shape.words.is_power_of_two() && shape.words <= 64.min(shape.block_bytes / 8).max(1);
    if !(1..=256).contains(&shape.cores) || !(1..=65536).contains(&shape.blocks) || !bytes_fit || !words_fit {
        return Err(Fault::Shape);
    }
    Ok((command, shape))
}

fn simulate() -> Result<(), Fault> {
    let (command, shape) = parse_options(env::args().skip(1))?;
    let mut texts = Texts::new(shape, !matches!(command, Command::Steps));
    let mut buffer = vec![0; 1 << 16];
    loop {
        match io::stdin().read(&mut buffer) {
            Ok(0) => break,
            Ok(count) => texts.take(&buffer[..count])?,
            Err(error) if error.kind() == io::ErrorKind::Interrupted => {}
            Err(error) => return Err(Fault::Io(error)),
        }
    }
    let records = texts.end()?;
    match shape.words {
        1 => take::<1>(command, shape, records)?,
        2 => take::<2>(command, shape, records)?,
        4 => take::<4>(command, shape, records)?,
        8 => take::<8>(command, shape, records)?,
        16 => take::<16>(command, shape, records)?,
        32 => take::<32>(command, shape, records)?,
        _ => take::<64>(command, shape, records)?,
    }
    Ok(())
}

/// Takes the records on a machine whose blocks have `W` words, and writes its output.
fn take<const W: usize>(command: Command, shape: Shape, records: Records) -> io::Result<()> {
    let mut machine: Machine<W> = Machine::reset(shape);
    let mut out = Output::new(io::stdout().lock(), shape);
    match command {
        Command::Steps => {
            for step in records.iter() {
                let reply = machine.step(step);
                out.line(step, reply)?;
            }
        }
        Command::Run => run::run(&mut machine, shape, records, &mut out)?,
        Command::Threads => {
            threads::threads(machine, shape, records, &mut out)?;
            return out.flush();
        }
    }
    machine.close();
    machine.report.write(W, &mut out)?;
    out.flush()
}

fn main() -> ExitCode {
    match simulate() {
        Ok(()) => ExitCode::SUCCESS,
        Err(fault) => {
            eprintln!("plain: {fault}");
            ExitCode::from(2)
        }
    }
}
