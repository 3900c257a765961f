//! An independent reference of the windshear unit, its exact fractions and its CSV text, a plain and fast
//! program beside it, lists of samples, waveforms, run files, texts and forged states to try a unit with,
//! and the library under the reference's calls.

pub mod bench;
pub mod both;
pub mod csv;
pub mod examples;
pub mod exchange;
pub mod files;
pub mod forged;
pub mod fraction;
pub mod gen;
pub mod lend;
pub mod library;
pub mod plain;
pub mod program;
pub mod reference;
pub mod saved;
pub mod shell;
pub mod texts;
pub mod waveform;
