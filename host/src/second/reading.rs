//! Reads one telegram: rules L1 to L19, V1 to V17, B1 to B7, R1 to R11 and R15.

use crate::second::faults::is_on;

pub const LF: u8 = 0x0A;
pub const CR: u8 = 0x0D;
/// The fewest and the most bytes of a telegram.
const SHORTEST: usize = 10;
pub const LONGEST: usize = 66;

/// The limited character set, 75 codes.
pub const SET: &str =
    "%()-:+ 0123456789ABCDEFGHIJKLMNOPQRSTUVWXYZabcdefghijklmnopqrstuvwxyz[\\]{|}";

/// Classes of characters named by a small letter or a star; any other character of a
/// pattern stands for itself.
const CLASSES: &[(u8, &str)] = &[
    (b'*', SET),
    (b'd', "0123456789"),
    (b'o', "01234567"),
    (b'm', "ABCD"),
    (b'n', "ABCDF"),
    (b'v', "ABCD "),
    (b'w', "ABCDF "),
    (b'x', "F16"),
    (b'y', "0123456789ABCDEFGHIJKLMNOPQRSTUV"),
];

/// A telegram form: the lines it is sent on, its type, and its packets in order, each a
/// letter, an equals sign and the patterns of its permitted values between bars.
pub struct Form {
    pub lines: &'static str,
    pub type_byte: u8,
    pub packets: &'static str,
}

const fn form(lines: &'static str, type_byte: u8, packets: &'static str) -> Form {
    Form {
        lines,
        type_byte,
        packets,
    }
}

/// The table of forms; a form has a row of its own for each line that permits other values.
pub const FORMS: &[Form] = &[
    form("12", b'A', "A=*"),
    form("3", b'A', "A=A|X|Y"),
    form("123", b'N', "N=1|2|A"),
    form("1", b'r', "B=B"),
    form("2", b'r', "B=5"),
    form("3", b'r', "B=K"),
    form("123", b't', "B=*"),
    form("1", b'c', "m=S|T"),
    form("2", b'5', "U=+|-"),
    form("3", b'o', "S=dd"),
    form("1", b'G', "E=ddd"),
    form("12", b'F', "P=oddd"),
    form("3", b'n', "T=dddddd"),
    form("1", b'B', "L=ddd %=ddd H=ddd R=88|00"),
    form("3", b'K', "F=Cdd D=dd C=dd M=:m V=:vv P=oddd"),
    form("3", b'O', "F=Cdd D=dd C=dd M=:m V=:vv P=oddd T=dddddd"),
    form(
        "2",
        b'1',
        "F=Cdd D=dd C=dd M=:n V=:ww P=oddd W=x X=x Y=y Z=o",
    ),
];

impl Form {
    /// True where an end sends this form on the line.
    pub fn is_on(&self, line: u8) -> bool {
        self.lines
            .bytes()
            .any(|digit| digit.wrapping_sub(b'0') == line)
    }

    /// The letters of the packets, each with its patterns.
    pub fn letters(&self) -> impl Iterator<Item = (u8, &'static str)> {
        self.packets.split(' ').filter_map(|packet| {
            let (letter, patterns) = packet.split_once('=')?;
            Some((*letter.as_bytes().first()?, patterns))
        })
    }

    /// The length of the data field.
    fn field_length(&self) -> usize {
        self.letters()
            .map(|(_, patterns)| 1 + value_length(patterns))
            .sum()
    }
}

/// The forms sent on a line by either end.
pub fn forms_on(line: u8) -> impl Iterator<Item = &'static Form> {
    FORMS.iter().filter(move |form| form.is_on(line))
}

/// The form of a type on a line.
pub fn form_of(line: u8, type_byte: u8) -> Option<&'static Form> {
    forms_on(line).find(|form| form.type_byte == type_byte)
}

/// The length of a packet's value, the same for each of its patterns.
pub fn value_length(patterns: &str) -> usize {
    patterns.split('|').next().map_or(0, str::len)
}

/// The characters that a class of a pattern stands for; none where a character stands for itself.
pub fn members(class: u8) -> Option<&'static str> {
    let row = CLASSES.iter().find(|(name, _)| *name == class)?;
    Some(row.1)
}

/// True where one of the patterns permits the value.
pub fn permits(patterns: &str, value: &[u8]) -> bool {
    let fits = |(class, byte): (u8, &u8)| match members(class) {
        Some(characters) => characters.as_bytes().contains(byte),
        None => class == *byte,
    };
    patterns
        .split('|')
        .any(|pattern| pattern.len() == value.len() && pattern.bytes().zip(value).all(fits))
}

/// The two checksum characters of bytes.
pub fn checksum(bytes: &[u8]) -> String {
    let sum: usize = bytes.iter().map(|byte| usize::from(*byte)).sum();
    format!("{:02X}", (256 - sum % 256) % 256)
}

/// What an accepted telegram says: its type, its number, 0 or 1, and its packets, each with
/// its letter and its value as text.
#[derive(Debug, Clone, PartialEq, Eq)]
pub struct Reading {
    pub type_byte: u8,
    pub number: u8,
    pub packets: Vec<(char, String)>,
}

/// Reads a telegram on a line, or answers a refusal with its place.
pub fn read(line: u8, bytes: &[u8]) -> Result<Reading, (u8, usize)> {
    let length = bytes.len();
    let at = |index: usize| bytes.get(index).copied().unwrap_or(0);
    let part = |from: usize, to: usize| bytes.get(from..to).unwrap_or(&[]);
    if !matches!(line, 1..=3) {
        return Err((15, 0));
    }
    if length < SHORTEST {
        return Err((1, 0));
    }
    if length > LONGEST {
        return Err((2, 0));
    }
    if at(0) != LF {
        return Err((3, 0));
    }
    if part(1, 3) != format!("{:02}", length - 2).as_bytes() {
        return Err((4, 1));
    }
    if at(length - 1) != CR {
        return Err((5, length - 1));
    }
    let summed = checksum(part(1, length - 3));
    let found = part(length - 3, length - 1);
    let fits = found == summed.as_bytes()
        || is_on("lower case taken") && found.eq_ignore_ascii_case(summed.as_bytes());
    if !fits {
        return Err((6, length - 3));
    }
    if !b"01".contains(&at(4)) {
        return Err((7, 4));
    }
    let Some(form) = form_of(line, at(3)) else {
        return Err((8, 3));
    };
    let field = part(5, length - 3);
    let strange = |byte: &u8| !SET.as_bytes().contains(byte);
    if let Some(index) = field.iter().position(strange) {
        return Err((9, 5 + index));
    }
    if field.len() != form.field_length() {
        return Err((10, 5));
    }
    let packets = cut_packets(form, field);
    if let Some(packet) = packets.iter().find(|packet| packet.found != packet.letter) {
        return Err((10, packet.place));
    }
    if let Some(packet) = packets
        .iter()
        .find(|packet| !permits(packet.patterns, packet.value))
    {
        return Err((11, packet.place));
    }
    Ok(Reading {
        type_byte: form.type_byte,
        number: at(4) - b'0',
        packets: packets
            .iter()
            .map(|packet| {
                let text = String::from_utf8_lossy(packet.value).into_owned();
                (char::from(packet.letter), text)
            })
            .collect(),
    })
}

/// A packet as the form wants it, with what stands at its place.
struct Packet<'a> {
    letter: u8,
    patterns: &'static str,
    place: usize,
    found: u8,
    value: &'a [u8],
}

/// Cuts a data field of the form's length into its packets.
fn cut_packets<'a>(form: &Form, field: &'a [u8]) -> Vec<Packet<'a>> {
    let mut packets = Vec::new();
    let mut rest = field;
    for (letter, patterns) in form.letters() {
        let place = 5 + field.len() - rest.len();
        let Some((&found, behind)) = rest.split_first() else {
            break;
        };
        let (value, behind) = behind.split_at(value_length(patterns).min(behind.len()));
        rest = behind;
        packets.push(Packet {
            letter,
            patterns,
            place,
            found,
            value,
        });
    }
    packets
}
