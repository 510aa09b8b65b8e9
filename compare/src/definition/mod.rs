//! What the documents define: values, rows, the TagOps of data, one event, the list of answers, a trace, its histories, the
//! bench sheet and the capture.
//! Nothing else of this program is used in this folder.

pub mod answers;
pub mod capture;
pub mod codes;
pub mod columns;
pub mod event;
pub mod histories;
pub mod rows;
pub mod sheet;
pub mod steps;
pub mod tag_ops;
#[cfg(test)]
mod tests;
pub mod trace;
pub mod values;
