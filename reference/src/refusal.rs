//! The list of refusals, each with its number, its place and its reason.

use crate::impossible::Impossible;
use std::fmt;

#[derive(Clone, Debug, PartialEq, Eq)]
pub enum Refusal {
    BrakeRange,
    BlurRange,
    PlaceTooFar,
    MessageLength(usize),
    MessageCheck,
    FirstByte,
    ThirdByte,
    FourthByte,
    TrainTooHigh,
    GrantToForemost,
    TooManyTrains,
    TooManyControllers,
    NotInitial {
        train: usize,
        why: Initial,
    },
    /// The line counts from 0.
    Impossible {
        line: usize,
        why: Impossible,
    },
}

/// What a train does not keep that is to stand at the beginning.
#[derive(Clone, Copy, Debug, PartialEq, Eq)]
pub enum Initial {
    Length,
    Low,
    Front,
    High,
    End { farthest: u64 },
}

impl Refusal {
    pub fn number(&self) -> u32 {
        match self {
            Self::BrakeRange | Self::BlurRange => 1,
            Self::PlaceTooFar => 3,
            Self::MessageLength(_) | Self::MessageCheck => 4,
            Self::FirstByte | Self::ThirdByte | Self::FourthByte => 5,
            Self::TrainTooHigh | Self::GrantToForemost => 6,
            Self::TooManyTrains | Self::TooManyControllers => 8,
            Self::NotInitial { .. } => 9,
            Self::Impossible { .. } => 10,
        }
    }

    pub fn place(&self) -> usize {
        match self {
            Self::BrakeRange | Self::PlaceTooFar | Self::FirstByte | Self::TooManyTrains => 0,
            Self::BlurRange
            | Self::TrainTooHigh
            | Self::GrantToForemost
            | Self::TooManyControllers => 1,
            Self::MessageLength(length) => *length,
            Self::MessageCheck => 8,
            Self::ThirdByte => 2,
            Self::FourthByte => 3,
            Self::NotInitial { train, .. } => *train,
            Self::Impossible { line, .. } => *line,
        }
    }
}

impl fmt::Display for Refusal {
    fn fmt(&self, f: &mut fmt::Formatter<'_>) -> fmt::Result {
        write!(f, "refused {} at {}: ", self.number(), self.place())?;
        match self {
            Self::BrakeRange => f.write_str("a brake is from 1 to 100"),
            Self::BlurRange => f.write_str("a blur is from 0 to 100"),
            Self::PlaceTooFar => f.write_str("a place is at most 1000000000"),
            Self::MessageLength(_) => f.write_str("a message has 12 bytes"),
            Self::MessageCheck => f.write_str("the check is that of the first eight bytes"),
            Self::FirstByte => f.write_str("the first byte is 1 or 2"),
            Self::ThirdByte => f.write_str("the third byte is 0"),
            Self::FourthByte => f.write_str("the fourth byte is 0"),
            Self::TrainTooHigh => f.write_str("a train is at most 63"),
            Self::GrantToForemost => f.write_str("nobody grants to train 0"),
            Self::TooManyTrains => f.write_str("there are at most 64 trains"),
            Self::TooManyControllers => f.write_str("there are at most 8 controllers"),
            Self::NotInitial { why, .. } => why.fmt(f),
            Self::Impossible { why, .. } => why.fmt(f),
        }
    }
}

impl fmt::Display for Initial {
    fn fmt(&self, f: &mut fmt::Formatter<'_>) -> fmt::Result {
        match self {
            Self::Length => f.write_str("a train's length is at most its front"),
            Self::Low => f.write_str("low is at most the front"),
            Self::Front => f.write_str("the front is at most high"),
            Self::High => f.write_str("high is at most the end"),
            Self::End { farthest } => write!(f, "the end is at most {farthest}"),
        }
    }
}
