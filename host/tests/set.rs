//! Rule B7 beside the standard's own table (001 section 5.3.1): the table in itself, the second
//! version, the proved listing program on every byte, and the source, whose ranges stand in the
//! order of the table.

mod running;

use host::second::framing::framed;
use host::second::reading::{CR, LF, SET};
use running::{on_line, LISTING};
use std::{fs, path::Path};

/// The rows of the table in their order: the character, and its code in base 2, 8, 16 and 10.
const TABLE: &str = "\
% 00100101 045 25 37
( 00101000 050 28 40
) 00101001 051 29 41
- 00101101 055 2D 45
: 00111010 072 3A 58
+ 00101011 053 2B 43
0 00110000 060 30 48
1 00110001 061 31 49
2 00110010 062 32 50
3 00110011 063 33 51
4 00110100 064 34 52
5 00110101 065 35 53
6 00110110 066 36 54
7 00110111 067 37 55
8 00111000 070 38 56
9 00111001 071 39 57
A 01000001 101 41 65
B 01000010 102 42 66
C 01000011 103 43 67
D 01000100 104 44 68
E 01000101 105 45 69
F 01000110 106 46 70
G 01000111 107 47 71
H 01001000 110 48 72
I 01001001 111 49 73
J 01001010 112 4A 74
K 01001011 113 4B 75
L 01001100 114 4C 76
M 01001101 115 4D 77
N 01001110 116 4E 78
O 01001111 117 4F 79
P 01010000 120 50 80
Q 01010001 121 51 81
R 01010010 122 52 82
S 01010011 123 53 83
T 01010100 124 54 84
U 01010101 125 55 85
W 01010110 126 56 86
V 01010111 127 57 87
X 01011000 130 58 88
Y 01011001 131 59 89
Z 01011010 132 5A 90
space 00100000 040 20 32
a 01100001 141 61 97
b 01100010 142 62 98
c 01100011 143 63 99
d 01100100 144 64 100
e 01100101 145 65 101
f 01100110 146 66 102
g 01100111 147 67 103
h 01101000 150 68 104
i 01101001 151 69 105
j 01101010 152 6A 106
k 01101011 153 6B 107
l 01101100 154 6C 108
m 01101101 155 6D 109
n 01101110 156 6E 110
o 01101111 157 6F 111
p 01110000 160 70 112
q 01110001 161 71 113
r 01110010 162 72 114
s 01110011 163 73 115
t 01110100 164 74 116
u 01110101 165 75 117
v 01110110 166 76 118
w 01110111 167 77 119
x 01111000 170 78 120
y 01111001 171 79 121
z 01111010 172 7A 122
æ 01111011 173 7B 123
ø 01111100 174 7C 124
å 01111101 175 7D 125
Æ 01011011 133 5B 91
Ø 01011100 134 5C 92
Å 01011101 135 5D 93
";

/// The characters that the table reads by DS 2089, each with the one that has its code in ASCII.
const NATIONAL: &str = "æ{ ø| å} Æ[ Ø\\ Å]";

/// The rows of the table, each with its character's name and its code.
fn rows() -> Vec<(&'static str, u8)> {
    let row = |row: &'static str| {
        let columns: Vec<_> = row.split(' ').collect();
        let [name, binary, octal, hex, decimal] = columns[..] else {
            panic!("{row}");
        };
        let code = |base, digits| u8::from_str_radix(digits, base).expect(row);
        let code_10 = code(10, decimal);
        for (base, digits) in [(2, binary), (8, octal), (16, hex)] {
            assert_eq!(code(base, digits), code_10, "{row}");
        }
        (name, code_10)
    };
    TABLE.lines().map(row).collect()
}

/// The codes of the table in its order.
fn codes() -> Vec<u8> {
    rows().iter().map(|(_, code)| *code).collect()
}

fn sorted(codes: &[u8]) -> Vec<u8> {
    let mut codes = codes.to_vec();
    codes.sort();
    codes
}

#[test]
fn the_table_has_75_codes() {
    for (name, code) in rows() {
        // the table has W and V at each other's code
        let printed = match name {
            "space" => ' ',
            "W" => 'V',
            "V" => 'W',
            _ => match NATIONAL.split(' ').find(|pair| pair.starts_with(name)) {
                Some(pair) => pair.chars().last().expect(pair),
                None => name.chars().next().expect(name),
            },
        };
        assert_eq!(u32::from(printed), u32::from(code), "{name}");
    }
    let mut codes = sorted(&codes());
    codes.dedup();
    assert_eq!(codes.len(), 75);
    assert!(!codes.contains(&b'^'));
    assert!(codes.iter().all(|code| *code < 0x80));
}

#[test]
fn the_second_version_has_those_of_the_table() {
    assert_eq!(sorted(SET.as_bytes()), sorted(&codes()));
}

#[test]
fn the_proved_program_takes_those_of_the_table() {
    // LF and CR end the telegram that they stand in, so no listing has one with them
    let bytes: Vec<u8> = (0..=255).filter(|b| ![LF, CR].contains(b)).collect();
    let table = codes();
    for (line, kind, letter) in [(1, b'A', b'A'), (2, b't', b'B'), (3, b't', b'B')] {
        let telegrams: Vec<_> = bytes
            .iter()
            .map(|byte| framed(kind, b'0', &[letter, *byte]))
            .collect();
        let parts: Vec<&[u8]> = telegrams.iter().map(Vec::as_slice).collect();
        let listing = LISTING.compare("every byte", &on_line(line, &parts));
        let answers: Vec<_> = listing.lines().collect();
        assert_eq!(answers.len(), bytes.len());
        for (answer, byte) in answers.iter().zip(&bytes) {
            let wanted = match table.contains(byte) {
                true => format!(" ok {} 0", char::from(kind)),
                false => " no 9 6".to_string(),
            };
            assert!(answer.ends_with(&wanted), "{byte:02X}: {answer}");
        }
    }
}

/// The codes that stand in a row of the source: as b'x', as "x", or as two hex digits behind 0x.
fn bounds(row: &str) -> Vec<u8> {
    let bytes = row.as_bytes();
    let quoted = bytes.windows(3).filter_map(|window| match window {
        [b'\'', code, b'\''] | [b'"', code, b'"'] => Some(*code),
        _ => None,
    });
    let hex = row.split("0x").skip(1);
    let hex = hex.map(|rest| u8::from_str_radix(&rest[..2], 16).expect(row));
    quoted.chain(hex).collect()
}

/// The codes of a file's ranges in their order: a row each, with what it is behind a mark.
fn in_order(file: &str, mark: &str) -> Vec<u8> {
    let path = Path::new(env!("CARGO_MANIFEST_DIR")).join("../crates/characters");
    let source = fs::read_to_string(path.join(file)).expect(file);
    let rows = source
        .lines()
        .filter_map(|line| line.trim().split_once(mark));
    let ranges = rows.filter(|(range, _)| !range.is_empty());
    ranges
        .flat_map(|(range, name)| {
            assert!(!name.trim().is_empty(), "{range}");
            match bounds(range)[..] {
                [only] => only..=only,
                [first, last] => first..=last,
                _ => panic!("{range}"),
            }
        })
        .collect()
}

#[test]
fn the_source_has_the_ranges_in_the_order_of_the_table() {
    assert_eq!(in_order("src/characters.rt", "// "), codes());
    assert_eq!(in_order("specs/Characters.antt", "-- "), codes());
}
