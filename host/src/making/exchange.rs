//! A plausible exchange of a master and a slave on a line, as a help desk gets it captured:
//! rules L1 to L3, M1 to M18 and D1 to D16, without their times.

use crate::making::captures::noise;
use crate::making::random::Random;
use crate::making::telegrams::of_form;
use crate::second::framing::framed;
use crate::second::reading::form_of;
use crate::second::records::data_type;

/// The types that the master of a line offers; those that it sends often stand here more than once.
fn offered(line: u8) -> &'static [u8] {
    match line {
        1 => b"FFFFGGGcrrrttt",
        2 => b"1111111FFrrttt",
        _ => b"OOOOOoonrrrttt",
    }
}

/// A valid telegram of a type on a line; a poll writes t.
fn of_type(random: &mut Random, line: u8, type_byte: u8, number: u8) -> Vec<u8> {
    match form_of(line, type_byte) {
        _ if type_byte == b't' => framed(b't', number, b"Bt"),
        Some(form) => of_form(random, form, number),
        None => Vec::new(),
    }
}

/// A valid telegram with the slave's data on a line.
fn data(random: &mut Random, line: u8, number: u8) -> Vec<u8> {
    let type_byte = data_type(line).unwrap_or_default();
    of_type(random, line, type_byte, number)
}

/// The answer N with a value.
fn refused(number: u8, value: u8) -> Vec<u8> {
    framed(b'N', number, &[b'N', value])
}

/// The slave's answer to a telegram of a type that arrived whole.
fn answer(random: &mut Random, line: u8, type_byte: u8, number: u8) -> Vec<u8> {
    let queued = random.one_in(3);
    match type_byte {
        _ if random.one_in(30) => refused(number, b'A'),
        b'r' => data(random, line, number),
        b't' if queued => data(random, line, number),
        b't' if line == 3 => of_type(random, line, b'A', number),
        _ => framed(b'A', number, b"AA"),
    }
}

/// How a sending arrives.
enum Arrival {
    Whole,
    Damaged,
    Short,
}

/// Adds a sending to the captured bytes, seldom damaged or cut short, at times with noise
/// behind it.
fn send(random: &mut Random, bytes: &mut Vec<u8>, telegram: &[u8]) -> Arrival {
    let mut sent = telegram.to_vec();
    let arrival = match random.below(60) {
        0 | 1 => {
            let index = 5 + random.below(sent.len().saturating_sub(8));
            if let Some(byte) = sent.get_mut(index) {
                *byte ^= 0x04;
            }
            Arrival::Damaged
        }
        2 => {
            sent.truncate(random.from_to(1, sent.len().saturating_sub(1)));
            Arrival::Short
        }
        _ => Arrival::Whole,
    };
    bytes.extend(sent);
    if random.one_in(9) {
        let length = random.from_to(1, 6);
        bytes.extend(noise(random, length));
    }
    arrival
}

/// The captured bytes of an exchange of at least this many telegrams, without the line digit. A
/// telegram is sent up to three times; after a giving up the number becomes 0.
pub fn exchange(random: &mut Random, line: u8, telegrams: usize) -> Vec<u8> {
    let mut bytes = Vec::new();
    let mut sendings = 0;
    let mut number = b'0';
    while sendings < telegrams {
        let type_byte = random.one_of(offered(line));
        let telegram = of_type(random, line, type_byte, number);
        let stored = answer(random, line, type_byte, number);
        let mut answered = false;
        for _ in 0..3 {
            sendings += 1;
            let reply = match send(random, &mut bytes, &telegram) {
                Arrival::Whole => &stored,
                Arrival::Damaged => &refused(number, b'1'),
                Arrival::Short => continue,
            };
            sendings += 1;
            let arrival = send(random, &mut bytes, reply);
            if matches!(arrival, Arrival::Whole) && *reply == stored {
                answered = true;
                break;
            }
        }
        number = if answered { number ^ 1 } else { b'0' };
    }
    bytes
}
