//! A controller: the farthest place that it heard for the rear of each train.

use crate::message::Message;
use crate::MOST_TRAINS;

#[derive(Clone, Debug)]
pub struct Controller {
    places: [u64; MOST_TRAINS],
}

impl Controller {
    pub fn new() -> Self {
        Self {
            places: [0; MOST_TRAINS],
        }
    }

    #[inline]
    pub fn hear(&mut self, message: Message) {
        if let Message::Report { train, place } = message {
            let known = &mut self.places[usize::from(train)];
            *known = place.max(*known);
        }
    }

    #[inline]
    pub fn place(&self, train: u8) -> u64 {
        self.places[usize::from(train)]
    }

    pub fn restart(&mut self) {
        *self = Self::new();
    }
}

impl Default for Controller {
    fn default() -> Self {
        Self::new()
    }
}
