//! The forms of rules L1 to L19 with the values of V1 to V17, laid out for quick checks: a byte is looked up once in
//! `KINDS`, and one AND says whether it may stand at its place in a data field.

/// The longest data field, that of type `1`.
pub const FIELD: usize = 30;

/// What the bytes of values may be: a bit for each class of characters.
pub const SET: u64 = 1;
const DIGIT: u64 = 1 << 1;
const OCTAL: u64 = 1 << 2;
const MODE: u64 = 1 << 3;
const MODE_F: u64 = 1 << 4;
const SHOWN: u64 = 1 << 5;
const SHOWN_F: u64 = 1 << 6;
const W_OR_X: u64 = 1 << 7;
const TO_V: u64 = 1 << 8;
const LAMPS: u64 = 1 << 9;
const SIGN: u64 = 1 << 10;
const CAUSE: u64 = 1 << 11;
const KEY: u64 = 1 << 12;
const ALIKE: u64 = 1 << 13;

const CLASSES: [(u64, &[u8]); 14] = [
    (
        SET,
        b"%()-:+ 0123456789ABCDEFGHIJKLMNOPQRSTUVWXYZabcdefghijklmnopqrstuvwxyz[\\]{|}",
    ),
    (DIGIT, b"0123456789"),
    (OCTAL, b"01234567"),
    (MODE, b"ABCD"),
    (MODE_F, b"ABCDF"),
    (SHOWN, b"ABCD "),
    (SHOWN_F, b"ABCDF "),
    (W_OR_X, b"F16"),
    (TO_V, b"0123456789ABCDEFGHIJKLMNOPQRSTUV"),
    (LAMPS, b"ST"),
    (SIGN, b"+-"),
    (CAUSE, b"12A"),
    (KEY, b"AXY"),
    (ALIKE, b"80"),
];

/// The characters that stand alone at a place: packet letters, and what a value begins with. Each has a bit behind
/// those of the classes.
const ALONE: &[u8] = b"ANBmUSEPTL%HRFDCMVWXYZ:5K";

/// The bit of a character that stands alone.
const fn only(character: u8) -> u64 {
    let mut index = 0;
    while ALONE[index] != character {
        index += 1;
    }
    1 << (CLASSES.len() + index)
}

/// The bits of each byte.
pub static KINDS: [u64; 256] = {
    let mut kinds = [0; 256];
    let mut class = 0;
    while class < CLASSES.len() {
        let (bit, characters) = CLASSES[class];
        let mut index = 0;
        while index < characters.len() {
            kinds[characters[index] as usize] |= bit;
            index += 1;
        }
        class += 1;
    }
    let mut index = 0;
    while index < ALONE.len() {
        kinds[ALONE[index] as usize] |= only(ALONE[index]);
        index += 1;
    }
    kinds
};

/// A packet: its letter, and for each byte of its value the bits of which it must have one.
pub type Packet = (u8, &'static [u64]);

/// A form: its lines, its type and its packets. From these: the length of its data field, the bits for each byte of
/// it, and a field that has the letters and no values yet.
pub struct Form {
    lines: &'static [u8],
    type_byte: u8,
    pub packets: &'static [Packet],
    pub length: usize,
    wanted: [u64; FIELD],
    pub blank: [u8; FIELD],
}

const fn form(lines: &'static [u8], type_byte: u8, packets: &'static [Packet]) -> Form {
    let (mut length, mut wanted, mut blank) = (0, [0; FIELD], [0; FIELD]);
    let mut index = 0;
    while index < packets.len() {
        let (letter, value) = packets[index];
        wanted[length] = only(letter);
        blank[length] = letter;
        let mut place = 0;
        while place < value.len() {
            wanted[length + 1 + place] = value[place];
            place += 1;
        }
        length += 1 + value.len();
        index += 1;
    }
    Form {
        lines,
        type_byte,
        packets,
        length,
        wanted,
        blank,
    }
}

const TWO: &[u64] = &[DIGIT; 2];
const THREE: &[u64] = &[DIGIT; 3];
const SIX: &[u64] = &[DIGIT; 6];
const CHANNEL: &[u64] = &[only(b'C'), DIGIT, DIGIT];
const POSITION: &[u64] = &[OCTAL, DIGIT, DIGIT, DIGIT];
const COLON: u64 = only(b':');

/// The forms; one that differs by line has a row for each difference.
static FORMS: [Form; 17] = [
    form(&[1, 2], b'A', &[(b'A', &[SET])]),
    form(&[3], b'A', &[(b'A', &[KEY])]),
    form(&[1, 2, 3], b'N', &[(b'N', &[CAUSE])]),
    form(&[1], b'r', &[(b'B', &[only(b'B')])]),
    form(&[2], b'r', &[(b'B', &[only(b'5')])]),
    form(&[3], b'r', &[(b'B', &[only(b'K')])]),
    form(&[1, 2, 3], b't', &[(b'B', &[SET])]),
    form(&[1], b'c', &[(b'm', &[LAMPS])]),
    form(&[2], b'5', &[(b'U', &[SIGN])]),
    form(&[3], b'o', &[(b'S', TWO)]),
    form(&[1], b'G', &[(b'E', THREE)]),
    form(&[1, 2], b'F', &[(b'P', POSITION)]),
    form(&[3], b'n', &[(b'T', SIX)]),
    form(
        &[1],
        b'B',
        &[
            (b'L', THREE),
            (b'%', THREE),
            (b'H', THREE),
            (b'R', &[ALIKE; 2]),
        ],
    ),
    form(
        &[3],
        b'K',
        &[
            (b'F', CHANNEL),
            (b'D', TWO),
            (b'C', TWO),
            (b'M', &[COLON, MODE]),
            (b'V', &[COLON, SHOWN, SHOWN]),
            (b'P', POSITION),
        ],
    ),
    form(
        &[3],
        b'O',
        &[
            (b'F', CHANNEL),
            (b'D', TWO),
            (b'C', TWO),
            (b'M', &[COLON, MODE]),
            (b'V', &[COLON, SHOWN, SHOWN]),
            (b'P', POSITION),
            (b'T', SIX),
        ],
    ),
    form(
        &[2],
        b'1',
        &[
            (b'F', CHANNEL),
            (b'D', TWO),
            (b'C', TWO),
            (b'M', &[COLON, MODE_F]),
            (b'V', &[COLON, SHOWN_F, SHOWN_F]),
            (b'P', POSITION),
            (b'W', &[W_OR_X]),
            (b'X', &[W_OR_X]),
            (b'Y', &[TO_V]),
            (b'Z', &[OCTAL]),
        ],
    ),
];

/// What stands in `ROWS` for a type that the line does not have.
const NONE: u8 = u8::MAX;

/// The row of `FORMS` that a type has on each line.
static ROWS: [[u8; 256]; 3] = {
    let mut rows = [[NONE; 256]; 3];
    let mut row = 0;
    while row < FORMS.len() {
        let form = &FORMS[row];
        let mut index = 0;
        while index < form.lines.len() {
            rows[form.lines[index] as usize - 1][form.type_byte as usize] = row as u8;
            index += 1;
        }
        row += 1;
    }
    rows
};

/// The form of a type on a line; the line is 1, 2 or 3.
pub fn form_of(line: u8, type_byte: u8) -> Option<&'static Form> {
    let row = ROWS[usize::from(line - 1)][usize::from(type_byte)];
    FORMS.get(usize::from(row))
}

impl Form {
    /// Whether the form permits the bytes of a data field of its length (R9 to R11).
    pub fn permits(&self, field: &[u8]) -> bool {
        let wanted = self.wanted[..self.length].iter();
        let fits = field.iter().zip(wanted).fold(true, |fits, (byte, wanted)| {
            fits & (KINDS[usize::from(*byte)] & wanted != 0)
        });
        // only B has a field of 15 bytes; its last two, the value of R, are alike (V6)
        fits && (self.length != 15 || field[13] == field[14])
    }
}
