//! The processor time of reading and of writing messages that were prepared before, in nanoseconds a message.

use crate::answers::{Asked, ReadMessage, WrittenMessage, LENGTH};
use crate::messages::{bytes_of, possible, Chance};
use crate::{by_rattle, by_rust, by_zlib};
use std::arch::asm;

/// How many messages are prepared, so few that the processor's fastest memory has them, and how often each is gone over.
const PREPARED: usize = 1_000;
const TIMES: usize = 5_000;

pub struct Prepared {
    asked: Vec<Asked>,
    bytes: Vec<[u8; LENGTH]>,
}

impl Prepared {
    pub fn new() -> Self {
        let mut chance = Chance::new();
        let asked: Vec<Asked> = (0..PREPARED).map(|_| possible(&mut chance)).collect();
        let bytes = asked.iter().map(|&asked| bytes_of(asked)).collect();
        Self { asked, bytes }
    }

    pub fn read_by_rattle(&mut self) -> f64 {
        self.read(by_rattle::read)
    }

    pub fn read_by_rust(&mut self) -> f64 {
        self.read(by_rust::read)
    }

    pub fn read_by_zlib(&mut self) -> f64 {
        each(&mut self.bytes, |bytes| {
            black_box(by_zlib::check_is_right(black_box(bytes)));
        })
    }

    pub fn write_by_rattle(&mut self) -> f64 {
        self.write(by_rattle::write)
    }

    pub fn write_by_rust(&mut self) -> f64 {
        self.write(by_rust::write)
    }

    pub fn write_by_zlib(&mut self) -> f64 {
        each(&mut self.bytes, |bytes| {
            by_zlib::put_check(black_box(bytes))
        })
    }

    fn read(&mut self, read: impl Fn(&[u8], &mut ReadMessage)) -> f64 {
        let mut answer = ReadMessage::default();
        each(&mut self.bytes, |bytes| {
            read(black_box(bytes), &mut answer);
            black_box(&mut answer);
        })
    }

    fn write(&mut self, write: impl Fn(Asked, &mut WrittenMessage)) -> f64 {
        let mut answer = WrittenMessage::default();
        each(&mut self.asked, |asked| {
            write(*black_box(asked), &mut answer);
            black_box(&mut answer);
        })
    }
}

/// Does the same with each prepared message many times over.
fn each<T>(prepared: &mut [T], mut work: impl FnMut(&mut T)) -> f64 {
    let begun = processor_nanoseconds();
    for _ in 0..TIMES {
        for one in &mut *prepared {
            work(one);
        }
    }
    (processor_nanoseconds() - begun) / (prepared.len() * TIMES) as f64
}

/// Hands a value back as if anything could have been done to it and to what it points to, so that the compiler leaves out
/// nothing of what made it or of what is done with it. `std::hint` has the same since Rust 1.66 only.
#[inline(always)]
fn black_box<T>(mut value: T) -> T {
    // SAFETY: the code is a comment alone, so nothing is done.
    unsafe { asm!("/* {0} */", in(reg) &mut value as *mut T, options(nostack, preserves_flags)) };
    value
}

#[repr(C)]
struct Timespec {
    seconds: i64,
    nanoseconds: i64,
}

extern "C" {
    fn clock_gettime(clock: i32, time: *mut Timespec) -> i32;
}

/// Linux's clock of the processor time that this program has had.
const CLOCK_PROCESS_CPUTIME_ID: i32 = 2;

fn processor_nanoseconds() -> f64 {
    let mut time = Timespec {
        seconds: 0,
        nanoseconds: 0,
    };
    // SAFETY: it writes a time.
    let failed = unsafe { clock_gettime(CLOCK_PROCESS_CPUTIME_ID, &mut time) };
    assert_eq!(failed, 0, "the processor time cannot be read");
    time.seconds as f64 * 1e9 + time.nanoseconds as f64
}
