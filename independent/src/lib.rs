//! The tuner of documents 01 and 02 a second time, written for obvious
//! correctness.
//!
//! It keeps the whole take and reckons every energy and correlation directly
//! over it, when it is needed. Nothing is carried along from sample to sample
//! that document 01 lets one reckon afresh.

pub mod calls;
pub mod check;
pub mod comparison;
pub mod generator;
pub mod history;
pub mod keyboard;
pub mod lines;
pub mod list;
pub mod mend;
pub mod night;
pub mod play;
pub mod record;
pub mod report;
pub mod rules;
pub mod settings;
pub mod smf;
pub mod songs;
pub mod statistics;
pub mod table;
pub mod takes;
pub mod tuner;
pub mod voice_lines;
pub mod voice_statistics;
pub mod voices;
pub mod wanted;
pub mod wave;
pub mod waves;
pub mod words;

#[cfg(test)]
mod spoiled;
