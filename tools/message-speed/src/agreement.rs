//! Holds the three against one another on many messages, valid and damaged, before anything is measured.

use crate::answers::{Asked, ReadMessage, WrittenMessage, LENGTH};
use crate::messages::{any, bytes_of, damage, possible, Chance};
use crate::{by_rattle, by_rust, by_zlib};

/// How many messages are tried in each of six ways.
const TRIED: u32 = 200_000;

/// Answers how many messages were tried, or what they do not agree on.
pub fn tried() -> Result<u32, String> {
    let mut chance = Chance::new();
    for _ in 0..TRIED {
        let valid = possible(&mut chance);
        let bytes = bytes_of(valid);
        if read_by_all(&bytes)?.refusal_number != 0 || write_by_all(valid)?.refusal_number != 0 {
            return Err(format!("a message that there can be is refused: {valid:?}"));
        }
        let mut damaged = bytes_of(any(&mut chance));
        damage(&mut damaged, &mut chance);
        read_by_all(&damaged)?;
        let length = chance.below(LENGTH as u64) as usize;
        read_alike(&damaged[..length])?;
        read_alike(&[&bytes[..], &damaged[..length]].concat())?;
        write_by_all(any(&mut chance))?;
    }
    Ok(6 * TRIED)
}

fn read_alike(bytes: &[u8]) -> Result<ReadMessage, String> {
    let (mut rattle, mut rust) = (leftover_read(), leftover_read());
    by_rattle::read(bytes, &mut rattle);
    by_rust::read(bytes, &mut rust);
    if rattle == rust {
        Ok(rattle)
    } else {
        Err(format!("read {bytes:?}: Rattle {rattle:?}, Rust {rust:?}"))
    }
}

/// zlib knows only the check, which is refused by 4 at 8.
fn read_by_all(bytes: &[u8; LENGTH]) -> Result<ReadMessage, String> {
    let answer = read_alike(bytes)?;
    let check_is_wrong = (answer.refusal_number, answer.refusal_place) == (4, 8);
    if check_is_wrong == by_zlib::check_is_right(bytes) {
        return Err(format!(
            "read {bytes:?}: {answer:?}, and zlib finds the check otherwise"
        ));
    }
    Ok(answer)
}

/// zlib makes only the check of the bytes.
fn write_by_all(asked: Asked) -> Result<WrittenMessage, String> {
    let (mut rattle, mut rust) = (leftover_written(), leftover_written());
    by_rattle::write(asked, &mut rattle);
    by_rust::write(asked, &mut rust);
    if rattle != rust {
        return Err(format!("write {asked:?}: Rattle {rattle:?}, Rust {rust:?}"));
    }
    if rattle.refusal_number == 0 && rattle.bytes != bytes_of(asked) {
        return Err(format!(
            "write {asked:?}: {rattle:?}, zlib {:?}",
            bytes_of(asked)
        ));
    }
    Ok(rattle)
}

/// What an answer's memory may hold before: nothing of it may be left.
fn leftover_read() -> ReadMessage {
    ReadMessage {
        refusal_number: 77,
        refusal_place: 77,
        kind: 77,
        train: 77,
        place: 77,
    }
}

fn leftover_written() -> WrittenMessage {
    WrittenMessage {
        refusal_number: 77,
        refusal_place: 77,
        bytes: [77; LENGTH],
    }
}
