//! What reading and writing answer, for each implementation alike: the structs of `message_c`.

/// How many bytes a message has.
pub const LENGTH: usize = 12;

/// A message that was read, or why there is none. What does not apply is 0.
#[repr(C)]
#[derive(Clone, Copy, Debug, Default, PartialEq, Eq)]
pub struct ReadMessage {
    pub refusal_number: u64,
    pub refusal_place: u64,
    pub kind: u64,
    pub train: u64,
    pub place: u64,
}

/// The bytes that were written, or why there are none. What does not apply is 0.
#[repr(C)]
#[derive(Clone, Copy, Debug, Default, PartialEq, Eq)]
pub struct WrittenMessage {
    pub refusal_number: u64,
    pub refusal_place: u64,
    pub bytes: [u8; LENGTH],
}

/// What is asked to be written.
#[derive(Clone, Copy, Debug)]
pub struct Asked {
    pub kind: u64,
    pub train: u64,
    pub place: u64,
}
