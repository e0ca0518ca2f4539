//! What was reached, and how much of each kind.

use crate::judge::ROW_LENGTH;
use crate::text::Refusal;
use std::collections::BTreeMap;

#[derive(Default)]
pub struct Tally {
    pub differences: usize,
    /// How often each call was to give each number.
    answers: BTreeMap<(&'static str, u16), usize>,
    /// How often each cause of a number decided in a header (true) or below one, and how often over another cause of the same number.
    causes: BTreeMap<(&'static str, u16, bool, &'static str), (usize, usize)>,
    /// How often each set of prefixes stood in a row that was compared.
    prefixes: BTreeMap<u16, usize>,
    /// Rows at which the whole pattern holds, by its number of beads.
    whole: BTreeMap<usize, usize>,
    /// Of these, how many have a pivot twice, and how many are of step 0.
    twice: usize,
    start: usize,
    /// How often each call that writes had a text buffer so much longer (2: or more) or shorter (-2: or less) than the text.
    rooms: BTreeMap<(&'static str, isize), usize>,
    /// How often what a call wrote was read back.
    read_back: BTreeMap<&'static str, usize>,
}

/// The numbers that each call can give.
const NUMBERS: [(&str, &[u16]); 5] = [
    ("read_pattern", &[0, 2, 10, 11, 12, 13, 14, 15, 16]),
    ("read_log", &[0, 1, 5, 20, 21, 22, 23, 24, 25, 26]),
    ("judge", &[0, 1, 2, 3, 4, 6, 7]),
    ("write_pattern", &[0, 2, 6, 12, 8]),
    ("write_log", &[0, 1, 5, 7, 8]),
];

/// The causes of each number that a line of a text is at fault for, in a header (true) or below one: the rows and ranks of the table of bytes.
/// A number after the causes says how many of them, the first ones, can outrank another.
#[rustfmt::skip]
const CAUSES: [(&str, u16, bool, &[&str], usize); 17] = [
    ("read_pattern", 11, true, &["line too long", "newline missing", "bad byte"], 2),
    ("read_pattern", 12, true, &["bead not in place", "rule not in place", "state not in place", "final not in place", "label empty",
        "label wrong", "label repeated", "label too many", "names missing"], 8),
    ("read_pattern", 13, true, &["nothing after the header"], 0),
    ("read_pattern", 11, false, &["line too long", "newline missing", "bad byte", "number of fields", "bead no number", "state no number",
        "final no number", "next set no number"], 8),
    ("read_pattern", 13, false, &["bead over 8", "first bead not 1", "bead out of order", "state over 15", "first state not 0",
        "state not the last plus 1", "state not 0 in the next bead", "final over 1"], 7),
    ("read_pattern", 14, false, &["neither SOME nor ALL", "changed inside a bead", "that of the bead before"], 0),
    ("read_pattern", 15, false, &["next set", "next set right of one for 16"], 2),
    ("read_pattern", 16, false, &["next set"], 1),
    ("read_log", 21, true, &["line too long", "newline missing", "bad byte"], 2),
    ("read_log", 22, true, &["none of the four", "name repeated", "fifth name", "names missing"], 3),
    ("read_log", 26, true, &["no step at all"], 0),
    ("read_log", 21, false, &["line too long", "newline missing", "bad byte", "number of fields", "vertex no number", "board no number",
        "board over 255", "labels no number", "preds no list"], 9),
    ("read_log", 23, false, &["vertex"], 0),
    ("read_log", 24, false, &["links of step 0", "none past step 0", "not rising", "not smaller"], 0),
    ("read_log", 25, false, &["labels of step 0", "past the label count"], 0),
    ("read_log", 26, false, &["step over 1,023", "ninth link", "4,097th link", "both, vertex further left", "both, preds further left"], 0),
    ("write_pattern", 12, true, &["not one newline, at the end", "line too long", "bad byte", "bead not in place", "rule not in place",
        "state not in place", "final not in place", "label empty", "label wrong", "label repeated", "label too many", "names missing",
        "another label count"], 12),
];

const WRITES: [&str; 2] = ["write_pattern", "write_log"];

/// The length of a text buffer against that of the text to be written.
const ROOMS: [(isize, &str); 5] = [(-2, "shorter"), (-1, "one byte short"), (0, "just right"), (1, "one byte more"), (2, "longer")];

impl Tally {
    pub fn count_answer(&mut self, call: &'static str, number: u16) {
        *self.answers.entry((call, number)).or_default() += 1;
    }

    pub fn count_cause(&mut self, call: &'static str, refusal: Refusal) {
        if refusal.line > 0 {
            let (all, over_another) = self.causes.entry((call, refusal.number, refusal.line == 1, refusal.cause)).or_default();
            *all += 1;
            *over_another += refusal.outranks as usize;
        }
    }

    pub fn count_rows(&mut self, rows: &[u16], beads: usize) {
        for (step, row) in rows.chunks(ROW_LENGTH).enumerate() {
            let whole = row[0] >> (beads - 1) & 1 == 1;
            *self.prefixes.entry(row[0]).or_default() += 1;
            *self.whole.entry(beads).or_default() += whole as usize;
            self.twice += (whole && row[1..2 + beads].windows(2).any(|pair| pair[0] == pair[1])) as usize;
            self.start += (whole && step == 0) as usize;
        }
    }

    pub fn count_room(&mut self, call: &'static str, text: usize, room: usize) {
        let more = (room as isize - text as isize).clamp(-2, 2);
        *self.rooms.entry((call, more)).or_default() += 1;
    }

    pub fn count_read_back(&mut self, call: &'static str) {
        *self.read_back.entry(call).or_default() += 1;
    }

    pub fn count(&self, call: &'static str, number: u16) -> usize {
        self.answers.get(&(call, number)).copied().unwrap_or(0)
    }

    /// Prints what decided the bytes, and gives how many causes were not reached, or never over another though they can be.
    fn report_causes(&self) -> usize {
        println!("causes that decided the byte, and in brackets how often over another of the same number:");
        let mut missed = 0;
        for (call, number, header, causes, over) in CAUSES {
            print!("  {call} {number} {}:", if header { "header" } else { "below" });
            for (i, &cause) in causes.iter().enumerate() {
                let (all, over_another) = self.causes.get(&(call, number, header, cause)).copied().unwrap_or_default();
                print!("{} {cause} {all}", if i > 0 { "," } else { "" });
                if i < over {
                    print!(" ({over_another})");
                }
                missed += (all == 0) as usize + (i < over && over_another == 0) as usize;
            }
            println!();
        }
        let known = |key: &(&str, u16, bool, &str)| {
            CAUSES
                .iter()
                .any(|(call, number, header, causes, _)| (*call, *number, *header) == (key.0, key.1, key.2) && causes.contains(&key.3))
        };
        for key in self.causes.keys().filter(|key| !known(key)) {
            println!("  a cause of no row: {key:?}");
            missed += 1;
        }
        missed
    }

    /// Prints it, and says whether all is well: no difference, and every number, cause, length and kind of row reached.
    pub fn report(&self) -> bool {
        let mut missed = 0;
        for (call, numbers) in NUMBERS {
            print!("{call}: accepted {}, refused with", self.count(call, 0));
            for &number in &numbers[1..] {
                print!(" {number}: {}", self.count(call, number));
            }
            println!();
            missed += numbers.iter().filter(|&&number| self.count(call, number) == 0).count();
        }
        missed += self.report_causes();
        for call in WRITES {
            print!("{call}: read back as the same buffer {}; text buffers", self.read_back.get(call).unwrap_or(&0));
            for (more, what) in ROOMS {
                let count = self.rooms.get(&(call, more)).copied().unwrap_or(0);
                print!(" {what}: {count}");
                missed += (count == 0) as usize;
            }
            println!();
        }
        print!("rows compared: {}, of them with the first k beads", self.prefixes.values().sum::<usize>());
        for k in 1..=8 {
            let count: usize = self.prefixes.iter().filter(|(set, _)| *set >> (k - 1) & 1 == 1).map(|(_, count)| count).sum();
            print!(" {k}: {count}");
        }
        println!(", with none: {}; different sets of prefixes: {}", self.prefixes.get(&0).unwrap_or(&0), self.prefixes.len());
        print!("rows at which the whole pattern holds, by its number of beads");
        for (beads, count) in &self.whole {
            print!(" {beads}: {count}");
        }
        println!("; with a pivot twice: {}, of step 0: {}", self.twice, self.start);
        missed += [self.twice, self.start].iter().filter(|&&count| count == 0).count();
        println!(
            "calls {}, differ {}, numbers, causes, lengths or kinds of rows not reached {missed}",
            self.answers.values().sum::<usize>(),
            self.differences
        );
        self.differences == 0 && missed == 0
    }
}
