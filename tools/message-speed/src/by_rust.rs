//! Messages by plain Rust: the library of `reference`, with its answers in the same structs, and one call for each.

use crate::answers::{Asked, ReadMessage, WrittenMessage};
use reference::message::{self, Message};
use reference::refusal::Refusal;

/// The numbers that docs/FORMATS.md gives for a first byte that is neither 1 nor 2, and for a train above 63.
const FIRST_BYTE: WrittenMessage = refused(5, 0);
const TRAIN_TOO_HIGH: WrittenMessage = refused(6, 1);

#[inline(never)]
pub fn read(bytes: &[u8], answer: &mut ReadMessage) {
    *answer = match message::read(bytes) {
        Ok(Message::Report { train, place }) => heard(1, train, place),
        Ok(Message::Grant { train, place }) => heard(2, train, place),
        Err(why) => ReadMessage {
            refusal_number: u64::from(why.number()),
            refusal_place: why.place() as u64,
            ..ReadMessage::default()
        },
    };
}

fn heard(kind: u64, train: u8, place: u64) -> ReadMessage {
    ReadMessage {
        refusal_number: 0,
        refusal_place: 0,
        kind,
        train: u64::from(train),
        place,
    }
}

/// The reference has no message of another kind, or for a train above 255, so these are refused before it is asked.
#[inline(never)]
pub fn write(asked: Asked, answer: &mut WrittenMessage) {
    let Asked { kind, train, place } = asked;
    *answer = match (kind, u8::try_from(train)) {
        (1, Ok(train)) => written(message::write(&Message::Report { train, place })),
        (2, Ok(train)) => written(message::write(&Message::Grant { train, place })),
        (1 | 2, Err(_)) => TRAIN_TOO_HIGH,
        _ => FIRST_BYTE,
    };
}

fn written(answer: Result<[u8; 12], Refusal>) -> WrittenMessage {
    match answer {
        Ok(bytes) => WrittenMessage {
            refusal_number: 0,
            refusal_place: 0,
            bytes,
        },
        Err(why) => refused(u64::from(why.number()), why.place() as u64),
    }
}

const fn refused(refusal_number: u64, refusal_place: u64) -> WrittenMessage {
    WrittenMessage {
        refusal_number,
        refusal_place,
        bytes: [0; 12],
    }
}
