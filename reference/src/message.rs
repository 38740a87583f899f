//! Messages, and the 12 bytes that each is written as.

use crate::crc::crc32;
use crate::refusal::Refusal;
use crate::FARTHEST;

/// How many bytes a message has.
pub const LENGTH: usize = 12;

const HIGHEST_TRAIN: u8 = 63;
const REPORT: u8 = 1;
const GRANT: u8 = 2;

#[derive(Clone, Copy, Debug, PartialEq, Eq)]
pub enum Message {
    /// The rear of the train is not behind the place.
    Report { train: u8, place: u64 },
    /// The train may go to the place.
    Grant { train: u8, place: u64 },
}

/// Writes a message as its 12 bytes.
pub fn write(message: &Message) -> Result<[u8; LENGTH], Refusal> {
    let (kind, train, place) = match *message {
        Message::Report { train, place } => (REPORT, train, place),
        Message::Grant { train, place } => (GRANT, train, place),
    };
    look_at_train(kind, train)?;
    let place = place_in_four_bytes(place)?;
    let mut bytes = [0; LENGTH];
    bytes[0] = kind;
    bytes[1] = train;
    bytes[4..8].copy_from_slice(&place.to_le_bytes());
    let check = crc32(&bytes[..8]);
    bytes[8..].copy_from_slice(&check.to_le_bytes());
    Ok(bytes)
}

/// Reads the message that these bytes are.
pub fn read(bytes: &[u8]) -> Result<Message, Refusal> {
    let bytes: &[u8; LENGTH] = bytes
        .try_into()
        .map_err(|_| Refusal::MessageLength(bytes.len()))?;
    let [kind, train, third, fourth, p0, p1, p2, p3, c0, c1, c2, c3] = *bytes;
    if u32::from_le_bytes([c0, c1, c2, c3]) != crc32(&bytes[..8]) {
        return Err(Refusal::MessageCheck);
    }
    if kind != REPORT && kind != GRANT {
        return Err(Refusal::FirstByte);
    }
    if third != 0 {
        return Err(Refusal::ThirdByte);
    }
    if fourth != 0 {
        return Err(Refusal::FourthByte);
    }
    look_at_train(kind, train)?;
    let place = u64::from(u32::from_le_bytes([p0, p1, p2, p3]));
    place_in_four_bytes(place)?;
    Ok(if kind == REPORT {
        Message::Report { train, place }
    } else {
        Message::Grant { train, place }
    })
}

fn look_at_train(kind: u8, train: u8) -> Result<(), Refusal> {
    match train {
        0 if kind == GRANT => Err(Refusal::GrantToForemost),
        0..=HIGHEST_TRAIN => Ok(()),
        _ => Err(Refusal::TrainTooHigh),
    }
}

fn place_in_four_bytes(place: u64) -> Result<u32, Refusal> {
    u32::try_from(place)
        .ok()
        .filter(|&place| u64::from(place) <= FARTHEST)
        .ok_or(Refusal::PlaceTooFar)
}

#[cfg(test)]
mod tests {
    use super::*;

    const REPORT_OF_0: [u8; 12] = [1, 0, 0, 0, 0xb6, 1, 0, 0, 0x86, 0xa4, 0x53, 0x90];
    const GRANT_FOR_1: [u8; 12] = [2, 1, 0, 0, 0xb6, 1, 0, 0, 0xd1, 0xa8, 0xab, 0xb8];

    fn checked(first: [u8; 8]) -> [u8; 12] {
        let mut bytes = [0; 12];
        bytes[..8].copy_from_slice(&first);
        bytes[8..].copy_from_slice(&crc32(&first).to_le_bytes());
        bytes
    }

    #[test]
    fn vectors_of_the_document() {
        let report = Message::Report {
            train: 0,
            place: 438,
        };
        let grant = Message::Grant {
            train: 1,
            place: 438,
        };
        assert_eq!(write(&report), Ok(REPORT_OF_0));
        assert_eq!(write(&grant), Ok(GRANT_FOR_1));
        assert_eq!(read(&REPORT_OF_0), Ok(report));
        assert_eq!(read(&GRANT_FOR_1), Ok(grant));
    }

    #[test]
    fn what_is_wrong_first_is_the_refusal() {
        assert_eq!(read(&[]), Err(Refusal::MessageLength(0)));
        assert_eq!(read(&[9; 11]), Err(Refusal::MessageLength(11)));
        assert_eq!(read(&[9; 13]), Err(Refusal::MessageLength(13)));
        assert_eq!(read(&[9; 12]), Err(Refusal::MessageCheck));
        let far = [0xff; 4];
        let whole = |kind, train, third, fourth| {
            let [a, b, c, d] = far;
            read(&checked([kind, train, third, fourth, a, b, c, d]))
        };
        assert_eq!(whole(0, 64, 1, 1), Err(Refusal::FirstByte));
        assert_eq!(whole(3, 64, 1, 1), Err(Refusal::FirstByte));
        assert_eq!(whole(1, 64, 1, 1), Err(Refusal::ThirdByte));
        assert_eq!(whole(1, 64, 0, 1), Err(Refusal::FourthByte));
        assert_eq!(whole(1, 64, 0, 0), Err(Refusal::TrainTooHigh));
        assert_eq!(whole(2, 255, 0, 0), Err(Refusal::TrainTooHigh));
        assert_eq!(whole(2, 0, 0, 0), Err(Refusal::GrantToForemost));
        assert_eq!(whole(1, 63, 0, 0), Err(Refusal::PlaceTooFar));
        let [a, b, c, d] = 1_000_000_001_u32.to_le_bytes();
        assert_eq!(
            read(&checked([1, 0, 0, 0, a, b, c, d])),
            Err(Refusal::PlaceTooFar)
        );
    }

    #[test]
    fn each_flipped_bit_is_seen() {
        for bit in 0..96 {
            let mut bytes = GRANT_FOR_1;
            bytes[bit / 8] ^= 1 << (bit % 8);
            assert_eq!(read(&bytes), Err(Refusal::MessageCheck));
        }
    }

    #[test]
    fn writing_looks_at_the_train_and_then_at_the_place() {
        let place = FARTHEST + 1;
        let refused = |message| write(&message).unwrap_err();
        assert_eq!(
            refused(Message::Report { train: 64, place }),
            Refusal::TrainTooHigh
        );
        assert_eq!(
            refused(Message::Grant { train: 0, place }),
            Refusal::GrantToForemost
        );
        for place in [place, 1 << 32, u64::MAX] {
            assert_eq!(
                refused(Message::Grant { train: 63, place }),
                Refusal::PlaceTooFar
            );
        }
    }

    #[test]
    fn what_is_written_is_read() {
        for train in 0..=HIGHEST_TRAIN {
            for place in [0, 1, 255, 256, 65_536, FARTHEST] {
                let report = Message::Report { train, place };
                assert_eq!(write(&report).and_then(|bytes| read(&bytes)), Ok(report));
                let grant = Message::Grant { train, place };
                if train > 0 {
                    assert_eq!(write(&grant).and_then(|bytes| read(&bytes)), Ok(grant));
                }
            }
        }
    }
}
