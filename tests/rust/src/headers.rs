//! Header texts for writing a pattern.

use crate::pattern::{header, MOST_LABELS};

/// The beginning of a label name that is no other's: no generated name has its length.
const NEW: &str = "anewlabel";

/// Header texts that are accepted for as many labels as these names.
pub fn sound(names: &[String]) -> Vec<(&'static str, Vec<u8>)> {
    let others = |name: fn(usize) -> String| header(&(0..names.len()).map(name).collect::<Vec<_>>());
    vec![
        ("its own", header(names)),
        ("other names", others(|i| format!("other{i}"))),
        ("a label called bead", header(&[&["bead".to_string()], &names_without("bead", names)[1..]].concat())),
        ("names of 12 digits", others(|i| format!("{:0>12}", i))),
        ("names of one letter", others(|i| ((b'a' + i as u8) as char).to_string())),
    ]
}

/// Header texts that are at fault for a pattern with these labels, and what is wrong with each. All are refused with 12.
pub fn at_fault(names: &[String], rows: &[u8]) -> Vec<(&'static str, Vec<u8>)> {
    let sound = header(names);
    let line = &sound[..sound.len() - 1];
    let ended = |line: &[u8]| [line, b"\n"].concat();
    let replaced = |from: &str, to: &str| String::from_utf8_lossy(&sound).replacen(from, to, 1).into_bytes();
    let first_byte = |byte: u8| [&[byte], &sound[1..]].concat();
    let stretched = |length: usize| ended(&[line, &vec![b'a'; length - line.len()]].concat());
    let last = &names[names.len() - 1];
    let with_last = |name: String| header(&[&names[..names.len() - 1], &[name]].concat());
    let more = |count: usize| header(&[names, &(0..count).map(|i| format!("{NEW}{i}")).collect::<Vec<_>>()].concat());
    let repeated = if names.len() > 1 { with_last(names[0].clone()) } else { header(&[names, names].concat()) };
    vec![
        ("empty", Vec::new()),
        ("a newline alone", b"\n".to_vec()),
        ("no newline", line.to_vec()),
        ("a newline first", [b"\n", &sound[..]].concat()),
        ("a newline first and none last", [b"\n", line].concat()),
        ("two newlines at the end", ended(&sound)),
        ("a second line", [&sound[..], &sound[..]].concat()),
        ("the rows, too", [&sound[..], rows].concat()),
        ("a second line without a newline", [&sound[..], line].concat()),
        ("a newline inside", replaced(" ", "\n")),
        ("a byte after the newline", [&sound[..], b" "].concat()),
        ("a carriage return", ended(&[line, b"\r"].concat())),
        ("a tab", replaced(" ", "\t")),
        ("byte 0", first_byte(0)),
        ("byte 31", first_byte(31)),
        ("byte 127", first_byte(127)),
        ("byte 128", first_byte(128)),
        ("240 bytes", stretched(240)),
        ("241 bytes", stretched(241)),
        ("17,000 bytes", stretched(17_000)),
        ("Bead for bead", replaced("bead", "Bead")),
        ("vertex for bead", replaced("bead", "vertex")),
        ("bead and rule exchanged", replaced("bead rule", "rule bead")),
        ("bead twice", replaced("bead", "bead bead")),
        ("bead missing", replaced("bead ", "")),
        ("final missing", replaced("final ", "")),
        ("three names", b"bead rule state\n".to_vec()),
        ("four names and no label", b"bead rule state final\n".to_vec()),
        ("a log's names", b"vertex board labels preds\n".to_vec()),
        ("a label twice", repeated),
        ("one label fewer", header(&names[..names.len() - 1])),
        ("one label more", more(1)),
        ("17 labels", more(MOST_LABELS + 1 - names.len())),
        ("a label of 13 letters", with_last("abcdefghijklm".into())),
        ("a label with a capital", with_last(last.replacen(|_| true, "A", 1))),
        ("a label with a hyphen", with_last(last.replacen(|_| true, "-", 1))),
        ("an empty label", with_last(String::new())),
        ("a space first", [b" ", &sound[..]].concat()),
        ("a space last", ended(&[line, b" "].concat())),
        ("two spaces", replaced(" ", "  ")),
    ]
}

/// The names with another in the place of this one, so that it can be put in front.
fn names_without(name: &str, names: &[String]) -> Vec<String> {
    names.iter().map(|other| if other == name { NEW.to_string() } else { other.clone() }).collect()
}
