//! A train on the line, with its unit.

use crate::braking::{Blur, Braking};
use crate::refusal::Initial;
use crate::unit::{Answer, Unit};
use crate::FARTHEST;

/// How a train stands when the day begins, as the head of a scenario gives it.
#[derive(Clone, Copy, Debug, PartialEq, Eq)]
pub struct Start {
    pub low: u64,
    pub front: u64,
    pub high: u64,
    pub end: u64,
    pub length: u64,
}

#[derive(Clone, Debug)]
pub struct Train {
    front: u64,
    unit: Unit,
}

impl Train {
    /// The train that stands so, behind the train ahead if there is one.
    pub fn standing(start: &Start, ahead: Option<&Train>) -> Result<Self, Initial> {
        let farthest = ahead.map_or(FARTHEST, Train::rear);
        if start.length > start.front {
            Err(Initial::Length)
        } else if start.low > start.front {
            Err(Initial::Low)
        } else if start.front > start.high {
            Err(Initial::Front)
        } else if start.high > start.end {
            Err(Initial::High)
        } else if start.end > farthest {
            Err(Initial::End { farthest })
        } else {
            Ok(Self {
                front: start.front,
                unit: Unit::standing(start.length, start.low, start.high, start.end),
            })
        }
    }

    #[inline]
    pub fn front(&self) -> u64 {
        self.front
    }

    #[inline]
    pub fn rear(&self) -> u64 {
        self.front - self.unit.length()
    }

    /// The gap from the rear of this train to the front of the next.
    #[inline]
    pub fn gap_to(&self, behind: &Train) -> u64 {
        self.rear().saturating_sub(behind.front)
    }

    /// What the unit says to the wish, and the highest speed that can come of it.
    #[inline]
    pub fn ask(&self, braking: Braking, wish: u64) -> (Answer, u64) {
        let answer = self.unit.ask(braking, wish);
        let most = match answer {
            Answer::Drive => wish,
            Answer::Brake => braking.brake.leaves(self.unit.speed()),
        };
        (answer, most)
    }

    #[inline]
    pub fn moves(&mut self, speed: u64, blur: Blur) {
        self.front += speed;
        self.unit.moved(speed, blur);
    }

    #[inline]
    pub fn mark(&mut self) {
        self.unit.mark(self.front);
    }

    #[inline]
    pub fn report(&self) -> u64 {
        self.unit.report()
    }

    #[inline]
    pub fn take(&mut self, place: u64) {
        self.unit.take(place);
    }
}
