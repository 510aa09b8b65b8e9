//! The calls that are compared, each described once.

pub mod all;
pub mod answers;
pub mod capture;
pub mod event;
pub mod sheet;
#[cfg(test)]
mod tests;
pub mod trace;
pub mod words;
