//! Lines that cannot be read, one kind at a time.

use crate::random::Random;

type Break = fn(&mut Random) -> Vec<u8>;

/// Every kind of unreadable line, by name.
pub const KINDS: &[(&str, Break)] = &[
    ("empty line", |_| vec![]),
    ("space before", |random| [b" ".to_vec(), some_line(random)].concat()),
    ("space after", |random| [some_line(random), b" ".to_vec()].concat()),
    ("two spaces", |random| replaced(random, " ", "  ")),
    ("tab", |random| replaced(random, " ", "\t")),
    ("carriage return", |random| [some_line(random), b"\r".to_vec()].concat()),
    ("NUL", |random| [some_line(random), vec![0]].concat()),
    ("lower case", |random| some_line(random).to_ascii_lowercase()),
    ("unknown letter", |random| [vec![*random.pick(b"TINUMSBDGEFX0+")], some_line(random)[1..].to_vec()].concat()),
    ("letter twice", |random| [some_line(random)[..1].to_vec(), some_line(random)].concat()),
    ("field missing", |random| without_last_field(&long_line(random))),
    ("field missing within", without_some_field),
    ("field too many", |random| [some_line(random), b" 0".to_vec()].concat()),
    ("sign missing", |random| report(random, &["1", "0", "32767"])),
    ("sign unknown", |random| report(random, &["*1", "~1", "=1", " +1"])),
    ("sign alone", |random| report(random, &["+", "-"])),
    ("two signs", |random| report(random, &["+-1", "--1", "++1"])),
    ("predicate over 32,767", |random| report(random, &["+32768", "-32768", "+65535", "-65536", "+99999"])),
    ("predicate of six digits", |random| report(random, &["-000001", "+100000"])),
    ("number over 65,535", |random| in_report(random, |random| random.between(65_536, 99_999).to_string())),
    ("six digits", |random| in_report(random, |random| format!("{:06}", random.below(1_000_000)))),
    ("id over 4,294,967,295", |random| in_outcome(random, |random| random.between(4_294_967_296, 9_999_999_999).to_string())),
    ("eleven digits", |random| in_outcome(random, |random| format!("{:011}", random.below(100_000)))),
    ("twenty digits", |random| with_number(random, |_| "18446744073709551617".to_string())),
    ("no number", |random| with_number(random, |random| random.pick(&["x", "0x1", "1a", "V0", "1.", ""]).to_string())),
    ("signed number", |random| with_number(random, |random| random.pick(&["+1", "-1", "-0"]).to_string())),
    ("outcome neither 0 nor 1", |random| format!("O 1 {}", random.pick(&["2", "01", "00", "10", "+1", "x", ""])).into_bytes()),
    ("byte over 127", |random| [some_line(random), vec![128 + random.below(128) as u8]].concat()),
    ("a byte more than the longest line", |random| {
        let more = *random.pick(b"0 \rx");
        [b"P 00001 +00001 00001 00000 00000".to_vec(), vec![more]].concat()
    }),
    ("any bytes", any_bytes),
    ("long line", |random| some_line(random).repeat(random.between(50, 400))),
    ("very long line", |random| b"C ".repeat(random.between(32_760, 40_000))),
];

/// A report with one of the words where sign and predicate stand.
fn report(random: &mut Random, symbols: &[&str]) -> Vec<u8> {
    let symbol = random.pick(symbols);
    format!("P {} {symbol} {} 0 0", random.below(3), random.below(9)).into_bytes()
}

fn some_line(random: &mut Random) -> Vec<u8> {
    if random.percent(30) { b"C".to_vec() } else { long_line(random) }
}

/// A readable line with fields.
fn long_line(random: &mut Random) -> Vec<u8> {
    if random.percent(60) { report(random, &["+1", "-1"]) } else { format!("O {} 1", random.below(9)).into_bytes() }
}

/// A readable line with one of the places of `old` replaced.
fn replaced(random: &mut Random, old: &str, new: &str) -> Vec<u8> {
    let line = String::from_utf8(long_line(random)).unwrap_or_default();
    let places: Vec<usize> = line.match_indices(old).map(|(place, _)| place).collect();
    let place = *random.pick(&places);
    format!("{}{new}{}", &line[..place], &line[place + old.len()..]).into_bytes()
}

fn without_last_field(line: &[u8]) -> Vec<u8> {
    let end = line.iter().rposition(|byte| *byte == b' ').unwrap_or(0);
    line[..end].to_vec()
}

fn without_some_field(random: &mut Random) -> Vec<u8> {
    let line = long_line(random);
    let mut fields: Vec<&[u8]> = line.split(|byte| *byte == b' ').collect();
    fields.remove(random.below(fields.len()));
    fields.join(&b' ')
}

/// A line with one bad number among good ones.
fn with_number(random: &mut Random, bad: fn(&mut Random) -> String) -> Vec<u8> {
    if random.percent(20) { in_outcome(random, bad) } else { in_report(random, bad) }
}

fn in_outcome(random: &mut Random, bad: fn(&mut Random) -> String) -> Vec<u8> {
    format!("O {} 1", bad(random)).into_bytes()
}

fn in_report(random: &mut Random, bad: fn(&mut Random) -> String) -> Vec<u8> {
    let bad = bad(random);
    match random.below(4) {
        0 => format!("P {bad} +1 0 0 0"),
        1 => format!("P 0 +1 {bad} 0 0"),
        2 => format!("P 0 +1 0 {bad} 0"),
        _ => format!("P 0 +1 0 0 {bad}"),
    }
    .into_bytes()
}

/// Bytes without a newline that begin as no readable line does.
fn any_bytes(random: &mut Random) -> Vec<u8> {
    let mut bytes: Vec<u8> = (0..random.between(1, 60)).map(|_| random.below(256) as u8).collect();
    bytes.iter_mut().for_each(|byte| *byte = if *byte == b'\n' { 0 } else { *byte });
    bytes[0] |= 128;
    bytes
}
