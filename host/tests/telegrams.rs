//! The manual's page of telegrams says what docs/RULES.md says, and what the second version's table of forms has.

mod machine;

use host::second::reading::{members, value_length, Form, FORMS};
use host::second::records::{by_master, Record};
use machine::text;

/// The rows of a table of docs/RULES.md that begin with these letters and a number: their cells, without the marks of code.
fn rows(letter: char) -> Vec<Vec<String>> {
    let row = |line: &str| {
        let cells = line.strip_prefix("| ")?.strip_suffix(" |")?;
        let cells = cells.split(" | ").map(|cell| cell.replace('`', ""));
        let cells: Vec<String> = cells.collect();
        let number = cells[0].strip_prefix(letter)?;
        number.parse::<u8>().ok().map(|_| cells)
    };
    text("docs/RULES.md").lines().filter_map(row).collect()
}

/// The page without the marks of the formatter.
fn page() -> String {
    text("man/in656-telegrams.7").replace("\\-", "-")
}

/// Things in a list: a comma between them, and this word before the last.
fn listed(things: &[String], last: &str) -> String {
    match things {
        [first @ .., end] if !first.is_empty() => format!("{} {last} {end}", first.join(", ")),
        _ => things.concat(),
    }
}

/// Ascending numbers as a person writes them.
fn numbers(all: &[u32]) -> String {
    let mut runs: Vec<(u32, u32)> = Vec::new();
    for number in all.iter().copied() {
        match runs.last_mut() {
            Some((_, end)) if *end + 1 == number => *end = number,
            _ => runs.push((number, number)),
        }
    }
    let run = |(from, to): (u32, u32)| match to - from {
        0 => vec![from.to_string()],
        1 => vec![from.to_string(), to.to_string()],
        _ => vec![format!("{from} to {to}")],
    };
    listed(&runs.into_iter().flat_map(run).collect::<Vec<_>>(), "or")
}

/// Characters as docs/RULES.md writes those of a value.
fn one_of(class: u8) -> String {
    match class {
        b'*' => "any character of the set".into(),
        b'o' => "0 to 7".into(),
        b'y' => "0 to 9 or A to V".into(),
        b'x' => "F, 1 or 6".into(),
        other => {
            let characters = members(other).expect("a class").chars();
            let shown: Vec<String> = characters.filter(|c| *c != ' ').map(String::from).collect();
            format!("one of {}", shown.join(" "))
        }
    }
}

/// What a value of these patterns may be, in the words of docs/RULES.md.
fn words(patterns: &str) -> String {
    let digits = |length: usize| format!("{} digits", ["two", "three", "", "", "six"][length - 2]);
    match patterns.as_bytes() {
        [b'C', rest @ ..] => format!("C and {}", digits(rest.len())),
        [b':', class] => format!("a colon and {}", one_of(*class)),
        [b':', class, _] => format!(
            "a colon and two characters, each {} or a space",
            one_of(*class)
        ),
        [b'o', rest @ ..] if !rest.is_empty() => {
            format!("a digit 0 to 7 and {}", digits(rest.len()))
        }
        [b'd', ..] => digits(patterns.len()),
        [class] if members(*class).is_some() => one_of(*class),
        _ => listed(
            &patterns.split('|').map(String::from).collect::<Vec<_>>(),
            "or",
        ),
    }
}

/// The numbers that the block may hold of a value, by trial: those with which the record has a telegram.
fn in_block(form: &Form, index: usize, patterns: &str) -> String {
    let line = form.lines.as_bytes()[0] - b'0';
    let mut record = Record {
        type_byte: form.type_byte,
        values: form.letters().map(|(_, own)| some(own)).collect(),
    };
    let limit = if patterns.len() > 4 {
        1_000_100
    } else {
        70_000
    };
    let mut taken = |value: &u32| {
        record.values[index] = *value;
        record.telegram(line, 0).is_some()
    };
    let all: Vec<u32> = (0..limit).filter(|value| taken(value)).collect();
    if !patterns.starts_with(':') || patterns.len() < 3 {
        return numbers(&all);
    }
    let mut codes: Vec<u32> = all.iter().map(|value| value % 256).collect();
    codes.sort_unstable();
    codes.dedup();
    let pairs = codes
        .iter()
        .flat_map(|left| codes.iter().map(move |right| left * 256 + right));
    assert_eq!(all, pairs.collect::<Vec<_>>());
    let codes = numbers(&codes);
    format!("the left code times 256 plus the right one, each {codes}")
}

/// A value that these patterns permit.
fn some(patterns: &str) -> u32 {
    let codes = |pattern: &str| {
        let first = |class: u8| members(class).map_or(class, |all| all.as_bytes()[0]);
        pattern
            .bytes()
            .fold(0, |sum, class| sum * 256 + u32::from(first(class)))
    };
    match patterns.strip_prefix(':') {
        Some(rest) => codes(rest),
        None if patterns.contains('d') || patterns == "88|00" => 0,
        None => codes(&patterns[..1]),
    }
}

/// The lines of a form as the page says them, with a small letter.
fn lines_of(form: &Form) -> String {
    let lines: Vec<String> = form.lines.chars().map(String::from).collect();
    let word = if lines.len() == 1 { "line" } else { "lines" };
    format!("{word} {}", listed(&lines, "and"))
}

/// The section of a type: a row for each packet, and in it one for each form that the type has.
fn section(type_byte: u8, carries: &str, sender: &str) -> String {
    let forms: Vec<&Form> = FORMS.iter().filter(|f| f.type_byte == type_byte).collect();
    let mut lines: Vec<char> = forms.iter().flat_map(|form| form.lines.chars()).collect();
    lines.sort_unstable();
    let lines: Vec<String> = lines.into_iter().map(String::from).collect();
    let word = if lines.len() == 1 { "Line" } else { "Lines" };
    let mut page = format!(
        ".Ss {}, {carries}\n{word} {}, by the {sender}.\n.Bl -tag -width \"V 3\" -compact\n",
        char::from(type_byte),
        listed(&lines, "and")
    );
    for (index, (letter, patterns)) in forms[0].letters().enumerate() {
        let letter = char::from(letter);
        page += &format!(".It {letter} {}\n", value_length(patterns));
        let rows = forms.iter().map(|form| {
            let (_, patterns) = form.letters().nth(index).expect("as many packets");
            let numbers = in_block(form, index, patterns);
            let row = format!("{}; in the block {numbers}\n", words(patterns));
            match forms.len() {
                1 => row,
                _ => format!("{}: {row}", lines_of(form)),
            }
        });
        page += &rows.collect::<Vec<_>>().join(".br\n");
    }
    page + ".El\n"
}

/// Each type of docs/RULES.md has its row and its section, and the page has no other.
#[test]
fn each_telegram() {
    let page = page();
    let types = rows('L').into_iter().filter(|row| row.len() == 6);
    let types: Vec<Vec<String>> = types.collect();
    assert_eq!(types.len(), 14);
    let mut expected = String::new();
    for row in &types {
        let type_byte = row[1].as_bytes()[0];
        let on: Vec<u8> = (1..=3)
            .filter(|line| {
                FORMS
                    .iter()
                    .any(|form| form.type_byte == type_byte && form.is_on(*line))
            })
            .collect();
        let sender = match on.iter().all(|line| by_master(*line, type_byte)) {
            true => "master",
            false => "slave",
        };
        let lines: Vec<String> = on.iter().map(u8::to_string).collect();
        let (lines, count) = (lines.join(" "), &row[4]);
        let first = format!(
            ".It {} Ta {} Ta {lines} Ta {sender} Ta {count}\n",
            row[1], row[2]
        );
        assert!(page.contains(&first), "{first}");
        let form = FORMS.iter().find(|form| form.type_byte == type_byte);
        let packets = form.expect("a form").letters();
        let packets = packets.map(|(letter, patterns)| {
            let length = value_length(patterns);
            format!("{} {length}", char::from(letter))
        });
        let k = types.iter().find(|row| row[1] == "K").expect("its row");
        let whole = row[3].replace("as K, then", &format!("{},", k[3]));
        assert_eq!(packets.collect::<Vec<_>>().join(", "), whole);
        expected += &section(type_byte, &row[2], sender);
    }
    let sections = page.split(".Ss ").count() - 1;
    assert_eq!(sections, types.len());
    let from = page.find(".Ss ").expect("a section");
    assert!(page[from..].starts_with(&expected), "wanted:\n{expected}");
}

/// The words of each value stand in its row of docs/RULES.md; of telegram 1 they have an F more.
#[test]
fn each_value() {
    let rules = rows('V');
    assert!(rules.len() >= 17);
    for form in FORMS {
        for (letter, patterns) in form.letters() {
            let letter = char::from(letter).to_string();
            let mut own = rules.iter().filter(|row| {
                let mut letters = row[1].split(" in ");
                let named = letters.next().unwrap_or("").split(' ');
                let of = letters.next().unwrap_or("");
                let here = of.is_empty() || of.as_bytes() == [form.type_byte];
                here && named.collect::<Vec<_>>().contains(&letter.as_str())
            });
            let rule = own.next().expect("a rule");
            let said = words(patterns);
            let said = match form.type_byte {
                b'1' => said.replace(" D F", " D"),
                _ => said,
            };
            assert!(rule[2].contains(&said), "{letter}: {said} in {rule:?}");
        }
    }
}
