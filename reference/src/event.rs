//! The events of a line. Their numbers are as the file gives them; whether there is such a train, controller or
//! message is looked at when the event is played.

#[derive(Clone, Copy, Debug, PartialEq, Eq)]
pub enum Event {
    Tick { train: u64, wish: u64, speed: u64 },
    Mark { train: u64 },
    Report { train: u64 },
    Hear { controller: u64, message: u64 },
    Tell { controller: u64, train: u64 },
    Grant { controller: u64, train: u64 },
    Take { message: u64 },
    Restart { controller: u64 },
}
