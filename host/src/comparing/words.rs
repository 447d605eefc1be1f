//! Words of refusals and outcomes by both, into outputs of every small length.

use super::Pair;
use crate::making::random::Random;
use crate::second::face::{Answer, Call};

/// The rooms of a sweep: up to more than any words need.
const ROOMS: usize = 100;

/// Says a number of random words, and this chunk's share of a sweep.
pub fn say(pair: &mut Pair, seed: u64, items: usize) {
    let mut random = Random::seeded(0x0900_0000 + seed);
    if pair.is_whole() && seed < ROOMS as u64 {
        every_number(pair, seed as usize);
    }
    for _ in 0..items {
        let (one, two, three) = (
            number(&mut random),
            number(&mut random),
            number(&mut random),
        );
        let refusal = match random.below(3) {
            0 => number(&mut random),
            _ => random.below(24) as u32,
        };
        let calls = [
            Call::RefusalWords(refusal),
            Call::DeskWords(one, two),
            Call::MasterWords(one, three),
        ];
        for call in calls {
            let room = random.below(ROOMS);
            let answer = into(pair, call, room);
            if answer.refusal == 0 {
                // the rooms next to what the words need
                for room in (answer.written as usize).saturating_sub(1).. {
                    let nearly = into(pair, call, room);
                    if room > answer.written as usize {
                        assert_eq!(nearly, answer, "{call:?} differs\nwith more room");
                        break;
                    }
                    assert_eq!(nearly.refusal, 14, "{call:?} differs\nwith less room");
                }
            }
        }
    }
}

/// Mostly a small number, at times a wide one with a small lowest byte.
fn number(random: &mut Random) -> u32 {
    let small = random.below(8) as u32;
    match random.below(16) {
        0 => random.draw() as u32,
        1 => small + (1 << random.from_to(8, 31)),
        2 => random.below(300) as u32,
        _ => small,
    }
}

fn into(pair: &mut Pair, call: Call, room: usize) -> Answer {
    let (mut state, mut record) = (pair.lent(&[]), pair.lent(&[]));
    let mut out = pair.lent(&vec![0xEE; room]);
    let answer = pair.call(call, &mut state, &mut out, &mut record);
    if answer.refusal == 0 {
        let (words, behind) = out.bytes().split_at(answer.written as usize);
        let plain = words
            .iter()
            .all(|byte| (b' '..=b'~').contains(byte) && !words.is_empty());
        let ended = behind.first() == Some(&0) && behind.iter().skip(1).all(|byte| *byte == 0xEE);
        assert!(plain && ended, "{call:?} differs\nfrom words: {out:?}");
    }
    answer
}

/// Every number with a room.
fn every_number(pair: &mut Pair, room: usize) {
    for refusal in (0..=40).chain([255, 256, 257, 0x1_0000, 0x0100_0001, u32::MAX]) {
        into(pair, Call::RefusalWords(refusal), room);
    }
    for one in (0..=12).chain([256 + 1, u32::MAX]) {
        for two in (0..=12).chain([256, 256 + 1, u32::MAX]) {
            into(pair, Call::DeskWords(one, two), room);
            into(pair, Call::MasterWords(one, two), room);
        }
    }
}
