//! How inputs are made: sweeps, draws and damage. Only the definition is used in this folder.

pub mod alike;
pub mod captures;
pub mod damage;
pub mod draw;
pub mod drawn;
pub mod events;
pub mod kinds;
pub mod limits;
pub mod lines;
pub mod near;
pub mod questions;
pub mod sheet_cuts;
pub mod sheet_damage;
pub mod sheet_draws;
pub mod sheet_pairs;
pub mod sheets;
pub mod text;
pub mod trace_draws;
pub mod traces;
pub mod wire;
