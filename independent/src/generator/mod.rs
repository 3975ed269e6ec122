//! Scripts for the line program, by kind and seed; and cases of calls, over
//! records and over WAVE files.
//!
//! Sound is made with +, -, x, / and floor of IEEE doubles alone, so a kind
//! and a seed give the same bytes on every machine.

pub mod cases;
mod choices;
pub mod cuts;
pub mod edges;
pub mod ensembles;
pub mod files;
mod filming;
mod holding;
mod hostile;
pub mod kinds;
pub mod lists;
mod many;
pub mod night;
mod nights;
mod player;
pub mod random;
mod runs;
pub mod script;
pub mod songs;
mod sound;
mod spoilt;
pub mod voices;
