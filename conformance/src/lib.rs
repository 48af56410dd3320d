//! A second, independent implementation of the split-phase task runtime, the serial run that its histories
//! are held against, a generator of programs, schedules and line tables, and a driver that compares two
//! implementations call by call. Above it, exam sheets, an assembler and a disassembler, and their comparison with other
//! programs'.

pub mod assembly;
pub mod begun;
pub mod bursts;
pub mod cases;
pub mod compare;
pub mod drops;
pub mod foreign;
pub mod generate;
#[cfg(feature = "library")]
pub mod library;
pub mod lines;
pub mod many;
pub mod mutants;
pub mod reference;
pub mod runtime;
pub mod scenario;
pub mod selfrun;
pub mod serial;
pub mod seven;
pub mod sheet;
pub mod shift;
pub mod shorten;
pub mod standin;
pub mod turn;
