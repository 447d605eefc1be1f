//! The built listing program against the independent listing where pieces of input meet, and on
//! long and slow input: rule P5.

mod running;

use host::making::captures::capture;
use host::making::random::Random;
use host::second::framing::framed;
use host::second::reading::{CR, LF};
use running::{on_line, LISTING, SAMPLE};
use std::time::Duration;

/// The size of the pieces in which the program reads at least.
const PIECE: usize = 65_536;
/// The telegrams laid across boundaries: short, longest of a form, of 66 bytes, and one
/// byte too long to be cut.
fn laid_across() -> Vec<Vec<u8>> {
    let mut longest = framed(b'1', b'1', b"FC99D00C11M:FV:F P7000WFX6YVZ7");
    longest.extend(b"\n08A0A AA6\r");
    vec![
        framed(b'A', b'0', b"A%"),
        longest,
        framed(b'A', b'0', &[b'A'; 58]),
        framed(b'A', b'0', &[b'A'; 59]),
    ]
}

/// A capture with a telegram laid this many bytes before or after each of four boundaries. The
/// digit does not count; counting it is the same as one byte more.
fn across(fill: &[u8], telegram: &[u8], shift: isize) -> Vec<u8> {
    let mut bytes = fill.to_vec();
    for boundary in [PIECE, 2 * PIECE, 3 * PIECE, 4 * PIECE] {
        let offset = boundary.saturating_add_signed(shift);
        bytes[offset..offset + telegram.len()].copy_from_slice(telegram);
    }
    on_line(2, &[&bytes])
}

#[test]
fn telegrams_across_boundaries_in_quiet() {
    let quiet = vec![b'x'; 4 * PIECE + 150];
    for telegram in laid_across() {
        for shift in -71..=71 {
            let input = across(&quiet, &telegram, shift);
            let listing = LISTING.compare_from_file("across boundaries in quiet", &input);
            assert!(telegram.len() > 66 || listing.lines().count() >= 4);
        }
    }
}

/// Quiet bytes with random stretches around each multiple of 8,192.
fn sparse(seed: u64, length: usize) -> Vec<u8> {
    let mut random = Random::seeded(seed);
    let mut bytes = vec![b'x'; length];
    for boundary in (8192..length).step_by(8192) {
        let stretch = capture(&mut random, 2, 500);
        let first = boundary - 250;
        let last = length.min(first + 500);
        bytes[first..last].copy_from_slice(&stretch[1..=last - first]);
    }
    bytes
}

#[test]
fn telegrams_across_boundaries_among_others() {
    let busy = sparse(10, 4 * PIECE + 150);
    for telegram in laid_across() {
        for shift in -71..=71 {
            let input = across(&busy, &telegram, shift);
            LISTING.compare_from_file("across boundaries among others", &input);
            LISTING.compare("across boundaries by pipe", &input);
        }
    }
}

#[test]
fn telegrams_packed_across_any_boundary() {
    for telegram in laid_across() {
        for shift in 0..telegram.len() {
            let times = 3 * PIECE / telegram.len();
            let input = on_line(2, &[&vec![b'x'; shift], &telegram.repeat(times)]);
            let listing = LISTING.compare_from_file("packed", &input);
            let most = if telegram.len() > 66 { 0 } else { times };
            assert!(listing.lines().count() >= most);
        }
    }
}

#[test]
fn inputs_that_end_near_boundaries() {
    let busy = on_line(2, &[&sparse(11, 3 * PIECE + 200)]);
    let open = [&[LF][..], &[b'A'; 40]].concat();
    let whole = framed(b'A', b'0', b"A%");
    for boundary in [PIECE, 2 * PIECE, 3 * PIECE] {
        for length in boundary - 70..=boundary + 70 {
            for end in [&open, &whole] {
                let mut input = busy[..length].to_vec();
                input[length - end.len()..].copy_from_slice(end);
                LISTING.compare_from_file("ends near boundaries", &input);
            }
        }
    }
}

#[test]
fn over_long_runs() {
    let good = framed(b'A', b'0', b"A%");
    for length in [63, 64, 65, 66, 67, 1000, 65_535, 65_536, 65_537, 200_000] {
        for byte in [b'A', 0, 0xFF] {
            let run = vec![byte; length];
            for line in 1..=3 {
                for parts in [
                    &[&run[..], &good, &run, b"\r", &good, &run][..],
                    &[b"\n", &run, b"\r", &good],
                    &[b"\n", &run, &good, b"\n", &run],
                    &[&good, b"\n", &run, b"\n\r\r", &run, &good],
                    &[b"\n", &run, b"\r", b"\n", &run, b"\r", &good],
                ] {
                    LISTING.compare("over-long runs", &on_line(line, parts));
                }
            }
        }
    }
}

#[test]
fn random_captures_of_4_mib() {
    for line in 1..=3 {
        let input = capture(&mut Random::seeded(12 + u64::from(line)), line, 4 << 20);
        LISTING.compare("4 MiB", &input);
        LISTING.compare_from_file("4 MiB from a file", &input);
    }
    let mut random = Random::seeded(16);
    let any: Vec<u8> = (0..4 << 20).map(|_| random.byte()).collect();
    LISTING.compare("4 MiB of any bytes", &on_line(1, &[&any]));
}

#[test]
fn input_fed_slowly() {
    let mut random = Random::seeded(17);
    let rest = Duration::from_micros(300);
    for line in 1..=3 {
        let input = capture(&mut random, line, 600);
        LISTING.compare_slowly("byte by byte", &input, rest, || 1);
        let input = capture(&mut random, line, 2000);
        LISTING.compare_slowly("in small writes", &input, rest, || random.from_to(1, 9));
        let input = capture(&mut random, line, 400_000);
        LISTING.compare_slowly("in larger writes", &input, rest, || random.from_to(1, 9000));
        let sizes = [1, PIECE - 1, 1, PIECE, 1, PIECE + 1];
        let mut turn = sizes.iter().cycle();
        LISTING.compare_slowly("in pieces", &input, rest, || {
            turn.next().map_or(1, |size| *size)
        });
    }
    LISTING.compare_slowly("digit alone", b"1", Duration::from_millis(20), || 1);
}

#[test]
#[ignore = "feeds more than 4 GiB"]
fn an_offset_past_4_gib() {
    let piece = [b"x".repeat((1 << 20) - 1).as_slice(), &[CR]].concat();
    let printed = LISTING.printed_for(b"3", &piece, 4097, &SAMPLE[1..]);
    let wanted = "1 4296015872 ok A 0\n2 4296015882 no 6 7\n";
    assert_eq!(String::from_utf8_lossy(&printed), wanted);
}
