//! How many gaps between neighbours were looked at, and the smallest of them.

use crate::train::Train;
use std::fmt;

#[derive(Clone, Copy, Debug, PartialEq, Eq)]
pub struct Gaps {
    per_event: u64,
    events: u64,
    smallest: u64,
}

impl Gaps {
    pub fn between(trains: &[Train]) -> Self {
        Self {
            per_event: trains.len().saturating_sub(1) as u64,
            events: 0,
            smallest: u64::MAX,
        }
    }

    /// Looks at the gaps after an event. Once all were looked at, only the gap in front of a train that came
    /// forward can be smaller than before.
    #[inline]
    pub fn look(&mut self, trains: &[Train], came_forward: Option<usize>) {
        self.events += 1;
        let some = if self.events == 1 {
            trains
        } else if let Some(train) = came_forward {
            &trains[train.saturating_sub(1)..=train]
        } else {
            return;
        };
        for pair in some.windows(2) {
            self.smallest = self.smallest.min(pair[0].gap_to(&pair[1]));
        }
    }
}

impl fmt::Display for Gaps {
    fn fmt(&self, f: &mut fmt::Formatter<'_>) -> fmt::Result {
        match self.events * self.per_event {
            0 => f.write_str("0 gaps"),
            count => write!(f, "{count} gaps, smallest {}", self.smallest),
        }
    }
}
