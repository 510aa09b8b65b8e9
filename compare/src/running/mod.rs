//! Feeding a program, reading its answers, counting, reporting and showing what differs, alike for every call.

pub mod arrival;
pub mod call;
pub mod compare;
pub mod program;
pub mod report;
#[cfg(test)]
mod tests;
