//! The brake and the blur of all trains, and the distance in which a train comes to a stand.

use crate::refusal::Refusal;

/// The speed that is lost at least in a tick of braking.
#[derive(Clone, Copy, Debug, PartialEq, Eq)]
pub struct Brake(u64);

impl Brake {
    pub fn new(brake: u64) -> Result<Self, Refusal> {
        match brake {
            1..=100 => Ok(Self(brake)),
            _ => Err(Refusal::BrakeRange),
        }
    }

    /// The highest speed that is left after a tick of braking.
    #[inline]
    pub fn leaves(self, speed: u64) -> u64 {
        speed.saturating_sub(self.0)
    }
}

/// How far a tick that moves can be off its measured speed, either way.
#[derive(Clone, Copy, Debug, PartialEq, Eq)]
pub struct Blur(u64);

impl Blur {
    pub fn new(blur: u64) -> Result<Self, Refusal> {
        match blur {
            0..=100 => Ok(Self(blur)),
            _ => Err(Refusal::BlurRange),
        }
    }

    #[inline]
    pub fn get(self) -> u64 {
        self.0
    }
}

/// What holds for the trains of a line alike.
#[derive(Clone, Copy, Debug, PartialEq, Eq)]
pub struct Braking {
    pub brake: Brake,
    pub blur: Blur,
}

impl Braking {
    /// How far a train that brakes from this speed can come before it stands.
    #[inline]
    pub fn distance(self, speed: u64) -> u64 {
        let Brake(brake) = self.brake;
        let mut speed = speed;
        let mut distance = 0;
        while speed > brake {
            speed -= brake;
            distance += speed + self.blur.get();
        }
        distance
    }
}

#[cfg(test)]
mod tests {
    use super::*;

    fn braking(brake: u64, blur: u64) -> Result<Braking, Refusal> {
        Ok(Braking {
            brake: Brake::new(brake)?,
            blur: Blur::new(blur)?,
        })
    }

    #[test]
    fn distances_of_brake_3_and_blur_1() {
        let braking = braking(3, 1).unwrap();
        let distances: Vec<u64> = (0..=12).map(|speed| braking.distance(speed)).collect();
        assert_eq!(distances, [0, 0, 0, 0, 2, 3, 4, 7, 9, 11, 15, 18, 21]);
    }

    #[test]
    fn ranges() {
        assert_eq!(braking(0, 101), Err(Refusal::BrakeRange));
        assert_eq!(braking(101, 0), Err(Refusal::BrakeRange));
        assert_eq!(braking(1, 101), Err(Refusal::BlurRange));
        assert!(braking(1, 0).is_ok() && braking(100, 100).is_ok());
    }
}
