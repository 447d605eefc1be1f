//! The independent version against the rules themselves: the cases of W9 and W10, the forms, the
//! refusals, cutting and the listing of P4.

use host::making::captures::{capture, noise};
use host::making::damage::DAMAGES;
use host::making::random::Random;
use host::making::telegrams::{any_form, of_form};
use host::second::cutting::{next_telegram, telegrams, Cutter, Heard};
use host::second::framing::{count, framed, seal};
use host::second::listing::listing;
use host::second::reading::{checksum, form_of, forms_on, read, Reading, CR, LF, SET};

/// A telegram as the paper prints it, with LF and CR.
fn telegram(text: &str) -> Vec<u8> {
    format!("\n{text}\r").into_bytes()
}

/// The reading of a type, number and packets.
fn reading(type_byte: u8, number: u8, packets: &[(char, &str)]) -> Reading {
    let packets = packets.iter().map(|(l, v)| (*l, v.to_string())).collect();
    Reading {
        type_byte,
        number,
        packets,
    }
}

/// The refusal and place of a telegram of type, number and data field, rightly framed.
fn answer(line: u8, type_byte: u8, field: &str) -> Result<(), (u8, usize)> {
    read(line, &framed(type_byte, b'0', field.as_bytes())).map(|_| ())
}

#[test]
fn cases_a_to_h_are_read() {
    type Case = (&'static str, u8, u8, u8, &'static [(char, &'static str)]);
    let cases: [Case; 8] = [
        ("08A0AAA5", 3, b'A', 0, &[('A', "A")]),
        ("08A1AAA4", 3, b'A', 1, &[('A', "A")]),
        ("08r0BK69", 3, b'r', 0, &[('B', "K")]),
        ("13n1T12345674", 3, b'n', 1, &[('T', "123456")]),
        ("0850U-B1", 2, b'5', 0, &[('U', "-")]),
        ("08N0N19B", 1, b'N', 0, &[('N', "1")]),
        ("08t0Bt3E", 1, b't', 0, &[('B', "t")]),
        (
            "21B0L125%090H120R88EC",
            1,
            b'B',
            0,
            &[('L', "125"), ('%', "090"), ('H', "120"), ('R', "88")],
        ),
    ];
    for (text, line, type_byte, number, packets) in cases {
        let wanted = Ok(reading(type_byte, number, packets));
        assert_eq!(read(line, &telegram(text)), wanted, "{text}");
    }
    for line in 1..=3 {
        assert!(read(line, &telegram("08N0N19B")).is_ok());
        assert!(read(line, &telegram("08t0Bt3E")).is_ok());
    }
}

#[test]
fn case_i_is_refused_6_at_7_and_case_j_sums_to_86() {
    assert_eq!(read(3, &telegram("08A0AAA6")), Err((6, 7)));
    assert_eq!(checksum(&[0x01, 0x10, 0xA0, 0x00, 0xC9]), "86");
    assert_eq!(checksum(&[]), "00");
    assert_eq!(checksum(&[0xFF, 0xFF]), "02");
}

#[test]
fn the_run_list_of_reading() {
    assert_eq!(read(1, b""), Err((1, 0)));
    assert_eq!(read(1, b"\n\r"), Err((1, 0)));
    assert_eq!(read(3, b"\n08A0AA5\r"), Err((1, 0)));
    let mut long = vec![b'0'; 67];
    long[0] = LF;
    assert_eq!(read(1, &long), Err((2, 0)));
    let full = framed(b'A', b'0', &[b'A'; 58]);
    assert_eq!((full.len(), &full[1..3]), (66, &b"64"[..]));
    for line in 1..=3 {
        assert_eq!(read(line, &full), Err((10, 5)));
    }
    for line in 1..=2 {
        assert_eq!(answer(line, b'F', "P7999"), Ok(()));
        assert_eq!(answer(line, b'F', "P8000"), Err((11, 5)));
    }
    assert_eq!(answer(1, b'c', "mS"), Ok(()));
    assert_eq!(answer(3, b'c', "mS"), Err((8, 3)));
}

#[test]
fn the_table_of_lines_and_of_byte_counts() {
    let types = [(1, "cFGrtBAN"), (2, "1Frt5AN"), (3, "OonrtKAN")];
    let counts = "A08 N08 r08 t08 c08 508 o09 G10 F11 n13 B21 K28 O35 136";
    let mut random = Random::seeded(1);
    for (line, types) in types {
        for byte in 0..=255 {
            let wanted = types.as_bytes().contains(&byte);
            assert_eq!(form_of(line, byte).is_some(), wanted, "{line} {byte}");
        }
        assert_eq!(forms_on(line).count(), types.len());
        for form in forms_on(line) {
            let made = of_form(&mut random, form, b'0');
            let start = format!("{}{:02}", char::from(form.type_byte), made.len() - 2);
            assert!(counts.split(' ').any(|count| count == start), "{start}");
            assert_eq!(&made[1..3], &start.as_bytes()[1..]);
        }
    }
}

#[test]
fn permitted_values() {
    let field_k = "FC01D23C45M:AV:B P7000";
    let rows: [(u8, u8, &str, &str); 11] = [
        (1, b'c', "m", "ST"),
        (2, b'5', "U", "+-"),
        (1, b'N', "N", "12A"),
        (1, b'r', "B", "B"),
        (2, b'r', "B", "5"),
        (3, b'r', "B", "K"),
        (3, b'A', "A", "AXY"),
        (1, b'A', "A", SET),
        (2, b'A', "A", SET),
        (2, b't', "B", SET),
        (3, b't', "B", SET),
    ];
    for (line, type_byte, letter, permitted) in rows {
        for value in SET.chars() {
            let wanted = match permitted.contains(value) {
                true => Ok(()),
                false => Err((11, 5)),
            };
            assert_eq!(answer(line, type_byte, &format!("{letter}{value}")), wanted);
        }
    }
    assert_eq!(SET.len(), 75);
    for (field, wanted) in [
        ("L000%000H000R00", Ok(())),
        ("L999%999H999R88", Ok(())),
        ("L99 %999H999R88", Err((11, 5))),
        ("L999%A99H999R88", Err((11, 9))),
        ("L999%999H9-9R88", Err((11, 13))),
        ("L999%999H999R80", Err((11, 17))),
        ("L999%999H999R08", Err((11, 17))),
        ("L9A9X999H999Q88", Err((10, 9))),
    ] {
        assert_eq!(answer(1, b'B', field), wanted, "{field}");
    }
    for (from, to, on_3, on_2) in [
        ("FC01", "FD01", Err((11, 5)), Err((11, 5))),
        ("M:A", "M:F", Err((11, 15)), Ok(())),
        ("M:A", "M: ", Err((11, 15)), Err((11, 15))),
        ("V:B ", "V:FF", Err((11, 18)), Ok(())),
        ("V:B ", "V:  ", Ok(()), Ok(())),
        ("V:B ", "V:BE", Err((11, 18)), Err((11, 18))),
        ("V:B ", "V-B ", Err((11, 18)), Err((11, 18))),
        ("P7000", "P8000", Err((11, 22)), Err((11, 22))),
        ("", "", Ok(()), Ok(())),
    ] {
        let field = field_k.replacen(from, to, 1);
        assert_eq!(answer(3, b'K', &field), on_3, "{field}");
        assert_eq!(answer(3, b'O', &format!("{field}T000009")), on_3);
        assert_eq!(answer(2, b'1', &format!("{field}WFX6YVZ7")), on_2);
    }
    for (tail, wanted) in [
        ("W1X1Y0Z0", Ok(())),
        ("W0X1Y0Z0", Err((11, 27))),
        ("W6X2YWZ8", Err((11, 29))),
        ("W6XFYWZ8", Err((11, 31))),
        ("W6XFYaZ8", Err((11, 31))),
        ("W6XFYAZ8", Err((11, 33))),
    ] {
        assert_eq!(answer(2, b'1', &format!("{field_k}{tail}")), wanted);
    }
}

#[test]
fn checks_go_in_their_order() {
    let mut bytes = framed(b'b', b'2', b"A^A");
    assert_eq!(read(9, b""), Err((15, 0)));
    assert_eq!(read(0, &bytes), Err((15, 0)));
    assert_eq!(read(3, &bytes), Err((7, 4)));
    bytes[4] = b'1';
    seal(&mut bytes);
    assert_eq!(read(3, &bytes), Err((8, 3)));
    bytes[3] = b'A';
    seal(&mut bytes);
    assert_eq!(read(3, &bytes), Err((9, 6)));
    bytes[6] = LF;
    seal(&mut bytes);
    assert_eq!(read(3, &bytes), Err((9, 6)));
    bytes[6] = b'B';
    seal(&mut bytes);
    assert_eq!(read(3, &bytes), Err((10, 5)));
    bytes.remove(7);
    count(&mut bytes);
    seal(&mut bytes);
    assert_eq!(read(3, &bytes), Err((11, 5)));
    bytes[6] = b'X';
    seal(&mut bytes);
    assert_eq!(read(3, &bytes), Ok(reading(b'A', 1, &[('A', "X")])));
    bytes[8] ^= 1;
    assert_eq!(read(3, &bytes), Err((6, 7)));
    bytes[9] = b'!';
    assert_eq!(read(3, &bytes), Err((5, 9)));
    bytes[2] = b' ';
    assert_eq!(read(3, &bytes), Err((4, 1)));
    bytes[0] = b'!';
    assert_eq!(read(3, &bytes), Err((3, 0)));
    bytes.resize(67, 0);
    assert_eq!(read(3, &bytes), Err((2, 0)));
    bytes.truncate(9);
    assert_eq!(read(3, &bytes), Err((1, 0)));
    assert_eq!(read(3, &telegram("08A0AXa5")), Err((6, 7)));
}

#[test]
fn made_telegrams_are_read_and_lower_case_checksums_are_not() {
    let mut random = Random::seeded(2);
    for line in 1..=3 {
        for _ in 0..3000 {
            let made = any_form(&mut random, line);
            let read_back = read(line, &made).expect("a made telegram is read");
            let field: String = read_back
                .packets
                .iter()
                .map(|(l, v)| format!("{l}{v}"))
                .collect();
            let number = b'0' + read_back.number;
            assert_eq!(framed(read_back.type_byte, number, field.as_bytes()), made);
            let mut lower = made.clone();
            let place = made.len() - 3;
            lower[place..].make_ascii_lowercase();
            if lower != made {
                assert_eq!(read(line, &lower), Err((6, place)));
            }
            for (_, damage) in DAMAGES {
                damage(&mut random, &mut lower);
                let _ = read(line, &lower);
            }
        }
    }
}

#[test]
fn cutting_by_the_paper() {
    assert_eq!(telegrams(b"\n\r"), [(0, &b"\n\r"[..])]);
    assert_eq!(telegrams(b"ab\rc\n1\n2\r3\r"), [(6, &b"\n2\r"[..])]);
    assert_eq!(telegrams(b"\n08A0AAA5"), []);
    for length in [65, 66, 67, 1000] {
        let mut bytes = vec![b'0'; length];
        (bytes[0], bytes[length - 1]) = (LF, CR);
        assert_eq!(telegrams(&bytes).len(), usize::from(length <= 66));
        assert_eq!(next_telegram(&bytes, 1), None);
        bytes[length - 1] = LF;
        bytes.push(CR);
        assert_eq!(telegrams(&bytes), [(length - 1, &b"\n\r"[..])]);
    }
    assert_eq!(next_telegram(b"\n\r", 2), None);
    assert_eq!(next_telegram(b"\n\r", 3), None);
    let mut cutter = Cutter::default();
    let heard = [Heard::Byte(LF), Heard::Hit, Heard::Byte(CR), Heard::Hit];
    assert!(heard.into_iter().all(|item| cutter.hear(item).is_none()));
}

#[test]
fn both_ways_of_cutting_agree() {
    let mut random = Random::seeded(3);
    for round in 0..2000 {
        let bytes = match round % 2 {
            0 => capture(&mut random, 1 + (round % 3) as u8, 1000),
            _ => noise(&mut random, 1000),
        };
        let mut cutter = Cutter::default();
        let mut cut = Vec::new();
        for (index, byte) in bytes.iter().enumerate() {
            if let Some(ended) = cutter.hear(Heard::Byte(*byte)) {
                cut.push((index + 1 - ended.len(), ended));
            }
        }
        let searched = telegrams(&bytes).into_iter();
        assert!(searched.eq(cut.iter().map(|(offset, cut)| (*offset, cut.as_slice()))));
    }
}

#[test]
fn a_hit_parts_the_stream() {
    let mut random = Random::seeded(4);
    for line in 1..=3 {
        let mut cutter = Cutter::default();
        for _ in 0..500 {
            let length = random.below(200);
            let bytes = capture(&mut random, line, length);
            let heard = bytes.iter().map(|byte| Heard::Byte(*byte));
            let cut: Vec<Vec<u8>> = heard.filter_map(|item| cutter.hear(item)).collect();
            assert!(cut
                .iter()
                .eq(telegrams(&bytes).iter().map(|(_, part)| part)));
            assert_eq!(cutter.hear(Heard::Hit), None);
        }
    }
}

#[test]
fn the_sample_listing() {
    let sample = listing(b"3\n08A0AAA5\r\n08A0AAA6\r");
    assert_eq!(sample, "1 0 ok A 0\n2 10 no 6 7\n");
    for refused in [&b""[..], b"0", b"4\n\r", b"x", b"\n3\n08A0AAA5\r", b"\x03"] {
        assert_eq!(listing(refused), "no 15 0\n");
    }
    assert_eq!(listing(b"1"), "");
    assert_eq!(listing(b"2\n\r"), "1 0 no 1 0\n");
    assert_eq!(listing(b"1\n\n08N0N19B\r"), "1 1 ok N 0\n");
}
