//! A small model of the log, written from document 01 and from nothing else; what a cut can leave; and a test that drives
//! any log (`Subject`) through every cut. README.md has the commands.

pub mod cases;
pub mod crash;
pub mod crc;
pub mod device;
pub mod format;
pub mod log;
pub mod meaning;
pub mod mutants;
pub mod report;
pub mod setup;
pub mod subject;
pub mod walk;
