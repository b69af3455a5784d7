//! The archive as a log that tests/compare drives. README.md has the commands.

pub mod archive;
