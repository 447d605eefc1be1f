//! Makes telegrams of every form, with right count and checksum: rules L6 to L19.

use crate::making::random::Random;
use crate::second::framing::framed;
use crate::second::reading::{forms_on, members, Form};

/// A random permitted value for the patterns of a packet.
fn value(random: &mut Random, patterns: &str) -> Vec<u8> {
    let choices: Vec<&str> = patterns.split('|').collect();
    let pattern = choices.get(random.below(choices.len())).unwrap_or(&"");
    let draw = |class: u8| match members(class) {
        Some(characters) => random.one_of(characters.as_bytes()),
        None => class,
    };
    pattern.bytes().map(draw).collect()
}

/// A valid telegram of a form with random permitted values.
pub fn of_form(random: &mut Random, form: &Form, number: u8) -> Vec<u8> {
    let mut field = Vec::new();
    for (letter, patterns) in form.letters() {
        field.push(letter);
        field.extend(value(random, patterns));
    }
    framed(form.type_byte, number, &field)
}

/// An A with the number of what was sent, and mostly a key position of line 3.
pub fn approved(random: &mut Random, sent: &[u8]) -> Vec<u8> {
    let number = sent.get(4).copied().unwrap_or(b'0');
    framed(b'A', number, &[b'A', random.one_of(b"AXXYAXXYAXXYB")])
}

/// A valid telegram of any form on a line.
pub fn any_form(random: &mut Random, line: u8) -> Vec<u8> {
    let forms: Vec<&Form> = forms_on(line).collect();
    let number = random.one_of(b"01");
    match forms.get(random.below(forms.len())) {
        Some(form) => of_form(random, form, number),
        None => Vec::new(),
    }
}
