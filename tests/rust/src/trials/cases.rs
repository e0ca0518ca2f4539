//! The cases of the gate's test programs. Their stored outputs were computed apart, and bind the reference; then the library is compared.

use super::*;
use crate::script::expand;

const PATTERNS: [&str; 2] =
    [include_str!("../../../../crates/pattern_cases/data/cases.txt"), include_str!("../../../../crates/pattern_cases/stdout")];
const LOGS: [&str; 2] = [include_str!("../../../../crates/log_cases/data/cases.txt"), include_str!("../../../../crates/log_cases/stdout")];
const HEADERS: [&str; 2] = [
    include_str!("../../../../crates/pattern_writer_cases/data/cases.txt"),
    include_str!("../../../../crates/pattern_writer_cases/stdout"),
];

const JUDGED: [&str; 2] =
    [include_str!("../../../../crates/judge_cases/data/cases.txt"), include_str!("../../../../crates/judge_cases/stdout")];
const LISTING: [&[u8]; 2] =
    [include_bytes!("../../../../examples/listing/pattern.txt"), include_bytes!("../../../../examples/listing/log.txt")];

impl Trials {
    pub fn stored_cases(&mut self) {
        let mut counts = [0; 4];
        // A column more says that less than the whole buffer is lent.
        for (case, answer) in cases(PATTERNS) {
            if let [what, text] = case[..] {
                let text = expand(text);
                self.comparison.must_refuse(answer, &pattern::read(&text), what);
                self.comparison.read_pattern(&text, pattern::LENGTH);
                counts[0] += 1;
            }
        }
        for (case, answer) in cases(LOGS) {
            if let [what, labels, text] = case[..] {
                let (labels, text) = (labels.parse().expect("a label count"), expand(text));
                if (1..=16).contains(&labels) {
                    self.comparison.must_refuse(answer, &log::read(&text, labels), what);
                }
                self.comparison.read_log(&text, labels, log::LENGTH);
                counts[1] += 1;
            }
        }
        // Those on the listing's pattern, with a header of their own and the whole text buffer.
        let listing = pattern::read(LISTING[0]).expect("the listing is accepted").buffer();
        for (case, answer) in cases(HEADERS) {
            if let [what, "=", "", header] = case[..] {
                let header = expand(header);
                self.comparison.must_refuse(answer, &pattern::write(&listing, &header), what);
                self.comparison.write_pattern(&listing, pattern::LENGTH, &header, 20_000);
                counts[2] += 1;
            }
        }
        for (what, pattern, log, stored) in judged() {
            let rows = judge::rows(&pattern, &log);
            self.comparison.must_hold(printed(&rows) == stored, what);
            self.comparison.judge(&pattern.buffer(), &log.buffer(), LENGTHS);
            counts[3] += 1;
        }
        println!(
            "cases of the gate's test programs: {} patterns, {} logs, {} header texts, {} judgings with their rows",
            counts[0], counts[1], counts[2], counts[3]
        );
    }
}

/// The judgings of buffers as the texts give them whose rows the stored output has one by one: what is tried, both inputs, and the rows.
fn judged() -> Vec<(&'static str, Pattern, Log, &'static str)> {
    let text = |script: &str, listing: &[u8]| if script == "=" { listing.to_vec() } else { expand(script) };
    let stored = |what: &str| {
        let beginning = format!("{what}: judge: number 0 ");
        let line = JUDGED[1].lines().find_map(|line| line.strip_prefix(&beginning))?;
        Some(line.split_once(" rows")?.1.split_once(';')?.0)
    };
    let case = |case: &'static str| match case.split('\t').collect::<Vec<_>>()[..] {
        [what, pattern, log] => {
            let rows = stored(what)?;
            let pattern = pattern::read(&text(pattern, LISTING[0])).ok()?;
            let log = log::read(&text(log, LISTING[1]), pattern.labels as u16).ok()?;
            Some((what, pattern, log, rows))
        }
        _ => None,
    };
    JUDGED[0].lines().filter_map(case).collect()
}

/// The rows as `judge_cases` prints them: of each row every number up to the last one that is not 0.
fn printed(rows: &[Row]) -> String {
    let row = |(step, row): (usize, &Row)| {
        let last = row.iter().rposition(|&number| number != 0).unwrap_or(0);
        let parts = row[..=last].iter().enumerate().map(|(place, number)| format!("{}{number}", if place < 2 { ':' } else { ',' }));
        format!(" {step}{}", parts.collect::<String>())
    };
    rows.iter().enumerate().map(row).collect()
}

/// The columns of each case, and the number, line and byte that the stored output has for it.
fn cases([cases, stored]: [&'static str; 2]) -> Vec<(Vec<&'static str>, (u16, usize, usize))> {
    let answered = |case: &'static str| {
        let columns: Vec<&str> = case.split('\t').collect();
        let beginning = format!("{}: number ", columns[0]);
        let line = stored.lines().find_map(|line| line.strip_prefix(&beginning))?;
        let words: Vec<&str> = line.split(' ').collect();
        match words[..] {
            [number, "line", line, "byte", byte, "count", ..] => {
                Some((columns, (number.parse().ok()?, line.parse().ok()?, byte.parse().ok()?)))
            }
            _ => panic!("a stored answer without its byte: {line}"),
        }
    };
    cases.lines().filter_map(answered).collect()
}
