//! Messages by Rattle: the static library of `message_c`.

use crate::answers::{Asked, ReadMessage, WrittenMessage};

extern "C" {
    fn message_read(bytes: *const u8, length: usize, answer: *mut ReadMessage);
    fn message_write(kind: u64, train: u64, place: u64, answer: *mut WrittenMessage);
}

pub fn read(bytes: &[u8], answer: &mut ReadMessage) {
    // SAFETY: the pointer and the length are those of a slice, and the answer is lent alone.
    unsafe { message_read(bytes.as_ptr(), bytes.len(), answer) }
}

pub fn write(asked: Asked, answer: &mut WrittenMessage) {
    // SAFETY: the answer is lent alone.
    unsafe { message_write(asked.kind, asked.train, asked.place, answer) }
}
