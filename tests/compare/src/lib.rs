//! The source (`tests/oracle`) against another log, by the trait `model::subject::Subject`: the model here, the compiled
//! archive in `tests/judge`. README.md has the commands.

pub mod opening;
pub mod oracle;
pub mod pair;
pub mod parts;
pub mod random;
