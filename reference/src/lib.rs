//! A second implementation of `bench`, written from docs/FORMATS.md.

pub mod arguments;
pub mod bench;
pub mod braking;
pub mod controller;
pub mod crc;
pub mod event;
pub mod failure;
pub mod gaps;
pub mod head;
pub mod impossible;
pub mod line;
pub mod message;
pub mod output;
pub mod play;
pub mod refusal;
pub mod statement;
pub mod train;
pub mod unit;
pub mod words;

/// The farthest place that there is, in decimetres from the foot of the line.
pub const FARTHEST: u64 = 1_000_000_000;
/// The highest wish that a driver can have.
pub const HIGHEST_WISH: u64 = 10_000;
/// How many trains there can be.
pub const MOST_TRAINS: usize = 64;
/// How many controllers there can be, and how many there are where nothing is said of them.
pub const MOST_CONTROLLERS: u64 = 8;
