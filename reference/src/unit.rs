//! The unit of a train: what it knows of its train, and what it answers to the driver.

use crate::braking::{Blur, Braking};

/// What a unit says to the driver.
#[derive(Clone, Copy, Debug, PartialEq, Eq)]
pub enum Answer {
    Drive,
    Brake,
}

#[derive(Clone, Debug)]
pub struct Unit {
    speed: u64,
    length: u64,
    low: u64,
    high: u64,
    end: u64,
}

impl Unit {
    /// The unit of a train that stands with its front between a low and a high place.
    pub fn standing(length: u64, low: u64, high: u64, end: u64) -> Self {
        Self {
            speed: 0,
            length,
            low,
            high,
            end,
        }
    }

    #[inline]
    pub fn speed(&self) -> u64 {
        self.speed
    }

    #[inline]
    pub fn length(&self) -> u64 {
        self.length
    }

    #[inline]
    pub fn ask(&self, braking: Braking, wish: u64) -> Answer {
        if wish == 0 {
            return Answer::Drive;
        }
        let reach = self.high + wish + braking.blur.get() + braking.distance(wish);
        if reach <= self.end {
            Answer::Drive
        } else {
            Answer::Brake
        }
    }

    #[inline]
    pub fn moved(&mut self, speed: u64, blur: Blur) {
        if speed != 0 {
            self.low = (self.low + speed).saturating_sub(blur.get());
            self.high += speed + blur.get();
        }
        self.speed = speed;
    }

    #[inline]
    pub fn mark(&mut self, front: u64) {
        self.low = front;
        self.high = front;
    }

    /// The place that the rear is not behind.
    #[inline]
    pub fn report(&self) -> u64 {
        self.low.saturating_sub(self.length)
    }

    #[inline]
    pub fn take(&mut self, place: u64) {
        self.end = self.end.max(place);
    }
}
