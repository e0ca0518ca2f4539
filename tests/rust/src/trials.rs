//! What is tried, and how often.

mod cases;
mod writes;

use crate::compare::{Comparison, LENGTHS};
use crate::damage;
use crate::generate::{self, Shape};
use crate::judge::{self, Row};
use crate::log::{self, Log};
use crate::pattern::{self, Pattern, Rule};
use crate::random::Random;
use crate::tally::Tally;

/// The reference on the listing: the rows that document 01 prints, row 1 as ask 3 has it, and both texts written back as they stand there.
pub fn listing() -> bool {
    let pattern_text = include_bytes!("../../../examples/listing/pattern.txt");
    let log_text = include_bytes!("../../../examples/listing/log.txt");
    let pattern = pattern::read(pattern_text).expect("the listing's pattern is accepted");
    let log = log::read(log_text, 3).expect("the listing's log is accepted");
    let row = |prefixes: u16, pivots: [u16; 3]| -> Row { [prefixes, pivots[0], pivots[1], pivots[2], 0, 0, 0, 0, 0, 0] };
    let bare = |prefixes| row(prefixes, [0; 3]);
    let printed = [bare(0), row(3, [0, 1, 1]), bare(0), row(2, [0, 1, 3]), bare(0), row(2, [0, 1, 5]), row(3, [0, 1, 6])];
    let right = judge::rows(&pattern, &log) == printed;
    println!("reference on the listing: {} rows, all as printed: {right}", printed.len());
    let header = b"bead rule state final vac hot vent\n";
    let back =
        pattern::write(&pattern.buffer(), header) == Ok(pattern_text.to_vec()) && log::write(&log.buffer(), 3) == Ok(log_text.to_vec());
    println!("reference on the listing: both texts written back: {back}");
    right && back
}

/// The reference judge against every reading of every route, written out, on small logs.
pub fn readings_written_out(times: usize) -> bool {
    let random = &mut Random::new(1);
    let (mut some, mut all, mut fails, mut here, mut differ) = (0, 0, 0, 0, 0);
    for _ in 0..times {
        let labels = random.within(1, 2);
        let pattern = generate::pattern(random, labels, 2, &[1, 2, 3]);
        let log = any_log(random, labels, 6);
        let pairs = (0..log.steps.len()).flat_map(|v| (0..=v).map(move |u| (u, v)));
        for (bead, (u, v)) in pairs.flat_map(|pair| pattern.beads.iter().map(move |bead| (bead, pair))) {
            let holds = judge::holds_by_readings(bead, &log, u, v);
            differ += (holds != judge::holds_forward(bead, &log, u, v)) as usize;
            here += (holds && u == v) as usize;
            match (holds, bead.rule) {
                (false, _) => fails += 1,
                (true, Rule::Some) => some += 1,
                (true, Rule::All) => all += 1,
            }
        }
    }
    println!(
        "reference against readings written out: SOME holds {some}, ALL holds {all}, of these from a step to itself {here}, fails {fails}; \
         differ {differ}"
    );
    differ == 0
}

/// Every trial of the library, each with its count.
pub fn all() -> Tally {
    let mut trials = Trials { comparison: Comparison::new(), random: Random::new(0x2545_0001_1957) };
    trials.stored_cases();
    trials.pattern_texts(5_000, "sound", 0, any_pattern);
    trials.pattern_texts(100, "at all limits", 0, full_pattern);
    trials.pattern_texts(100, "with 17 labels", 0, |random| generate::pattern(random, 17, 2, &[2]));
    trials.pattern_texts(100, "with 9 beads", 0, |random| generate::pattern(random, 2, 9, &[2]));
    trials.pattern_texts(100, "with 17 states in a bead", 0, one_state_too_many);
    trials.pattern_texts(30_000, "damaged one to three times", 3, any_pattern);
    trials.damaged_lines(20_000);
    trials.log_texts(5_000, "sound", 0, |random, labels| any_log(random, labels, 40));
    trials.log_texts(30_000, "damaged one to three times", 3, |random, labels| any_log(random, labels, 16));
    trials.log_texts(100, "with 8 links a step", 0, |random, labels| full_log(random, labels, 20, 8, 4_096));
    trials.log_texts(100, "with 9 links a step", 0, |random, labels| full_log(random, labels, 20, 9, 4_096));
    trials.log_texts(100, "with 1,024 steps", 0, |random, labels| full_log(random, labels, 1_024, 1, 4_096));
    trials.log_texts(100, "with 1,025 steps", 0, |random, labels| full_log(random, labels, 1_025, 1, 4_096));
    trials.log_texts(100, "with 4,096 links", 0, |random, labels| full_log(random, labels, 800, 8, 4_096));
    trials.log_texts(100, "with 4,097 links", 0, |random, labels| full_log(random, labels, 800, 8, 4_097));
    trials.judgings(8_000, "of 1 to 8 steps", |random| any_pair(random, 8));
    trials.judgings(8_000, "of 1 to 40 steps", |random| any_pair(random, 40));
    trials.judgings(400, "of 1 to 300 steps", |random| any_pair(random, 300));
    trials.judgings(100, "of 1 to 1,024 steps", |random| any_pair(random, 1_024));
    trials.judgings(20, "at all limits", |random| (full_pattern(random), full_log(random, 16, 1_024, 8, 4_096)));
    trials.damaged_buffers(20_000);
    trials.lengths_and_label_counts(6_000);
    trials.all_writes();
    trials.comparison.tally
}

struct Trials {
    comparison: Comparison,
    random: Random,
}

impl Trials {
    fn pattern_texts(&mut self, times: usize, what: &str, most_damages: usize, make: fn(&mut Random) -> Pattern) {
        let random = &mut self.random;
        for _ in 0..times {
            let pattern = make(random);
            let text = pattern_text(random, &pattern, most_damages);
            self.comparison.read_pattern(&text, roomy(random, pattern::LENGTH));
        }
        println!("pattern texts {what}: {times}");
    }

    fn log_texts(&mut self, times: usize, what: &str, most_damages: usize, make: fn(&mut Random, usize) -> Log) {
        let random = &mut self.random;
        for _ in 0..times {
            let labels = random.within(1, 16);
            let log = make(random, labels);
            let text = log_text(random, &log, most_damages);
            self.comparison.read_log(&text, labels as u16, roomy(random, log::LENGTH));
        }
        println!("log texts {what}: {times}");
    }

    /// One line damaged two to four times, so that causes of one number meet and rank.
    fn damaged_lines(&mut self, times: usize) {
        let random = &mut self.random;
        for _ in 0..times {
            let (pattern, log) = any_pair(random, 5);
            let text = pattern_text(random, &pattern, 0);
            let text = damage::one_line(random, &text);
            self.comparison.read_pattern(&text, pattern::LENGTH);
            let text = log_text(random, &log, 0);
            let text = damage::one_line(random, &text);
            self.comparison.read_log(&text, pattern.labels as u16, log::LENGTH);
        }
        println!("texts with one line damaged two to four times: {times} patterns, {times} logs");
    }

    fn judgings(&mut self, times: usize, what: &str, make: fn(&mut Random) -> (Pattern, Log)) {
        for _ in 0..times {
            let (pattern, log) = make(&mut self.random);
            let lengths = LENGTHS.map(|length| roomy(&mut self.random, length));
            self.comparison.judge(&pattern.buffer(), &log.buffer(), lengths);
        }
        println!("judgings {what}: {times}");
    }

    /// One or two numbers changed in the pattern buffer, in the log buffer or in both.
    fn damaged_buffers(&mut self, times: usize) {
        let random = &mut self.random;
        let accepted_before = self.comparison.tally.count("judge", 0);
        for _ in 0..times {
            let (pattern, log) = any_pair(random, 12);
            let (mut pattern, mut log) = (pattern.buffer(), log.buffer());
            let which = random.within(1, 3);
            for _ in 0..random.within(1, 2) {
                if which & 1 != 0 {
                    damage::buffer(random, &mut pattern);
                }
                if which & 2 != 0 {
                    damage::buffer(random, &mut log);
                }
            }
            let lengths = LENGTHS.map(|length| roomy(random, length));
            self.comparison.judge(&pattern, &log, lengths);
        }
        let still = self.comparison.tally.count("judge", 0) - accepted_before;
        println!("judgings of damaged buffers: {times}, of them still what some texts give: {still}");
    }

    /// Buffers often short and label counts often out of range, over sound and damaged input: the order of refusals shows.
    fn lengths_and_label_counts(&mut self, times: usize) {
        let random = &mut self.random;
        for _ in 0..times {
            let (pattern, log) = any_pair(random, 5);
            let damages = random.below(2);
            let text = pattern_text(random, &pattern, damages);
            self.comparison.read_pattern(&text, any_length(random, pattern::LENGTH));

            let text = log_text(random, &log, damages);
            let label_count = random.pick(&[0, 1, 2, 15, 16, 17, 18, 256, 65_535]);
            self.comparison.read_log(&text, label_count, any_length(random, log::LENGTH));

            let (mut pattern, mut log) = (pattern.buffer(), log.buffer());
            if damages > 0 {
                damage::buffer(random, &mut pattern);
                damage::buffer(random, &mut log);
            }
            let lengths = LENGTHS.map(|length| any_length(random, length));
            self.comparison.judge(&pattern, &log, lengths);
        }
        println!("calls with buffers of any length, and label counts from 0 to 65,535: {times} of each call");
    }
}

fn pattern_text(random: &mut Random, pattern: &Pattern, most_damages: usize) -> Vec<u8> {
    let names = generate::names(random, pattern.labels);
    damaged(random, pattern.text(&names), most_damages, pattern::MOST_BYTES)
}

fn log_text(random: &mut Random, log: &Log, most_damages: usize) -> Vec<u8> {
    let order = generate::order(random);
    damaged(random, log.text(order), most_damages, log::MOST_BYTES)
}

/// The text with so many damages at most, and at least one unless that is 0.
fn damaged(random: &mut Random, mut text: Vec<u8>, most_damages: usize, limit: usize) -> Vec<u8> {
    let times = random.within(most_damages.min(1), most_damages);
    for _ in 0..times {
        text = damage::text(random, &text, limit);
    }
    text
}

/// The documented length or some more.
fn roomy(random: &mut Random, length: usize) -> usize {
    length + random.pick(&[0, 0, 1, 100])
}

/// A length that is often too short.
fn any_length(random: &mut Random, length: usize) -> usize {
    match random.below(8) {
        0 => 0,
        1 => length - 1,
        2 => random.below(length),
        _ => roomy(random, length),
    }
}

fn any_pattern(random: &mut Random) -> Pattern {
    let (labels, beads) = (random.pick(&[1, 2, 3, 4, 16]), random.within(1, 8));
    let states: &[usize] = if random.percent(50) { &[1, 2, 3] } else { &[1, 2, 4, 8, 16] };
    generate::pattern(random, labels, beads, states)
}

fn full_pattern(random: &mut Random) -> Pattern {
    generate::pattern(random, 16, 8, &[16])
}

fn one_state_too_many(random: &mut Random) -> Pattern {
    let mut pattern = generate::pattern(random, 2, 3, &[16]);
    let states = &mut pattern.beads[random.below(3)].states;
    states.push(states[15].clone());
    pattern
}

fn any_log(random: &mut Random, labels: usize, most_steps: usize) -> Log {
    let (steps, shape) = (random.within(1, most_steps), generate::shape(random));
    generate::log(random, steps, labels, &shape)
}

/// A log whose steps have as many links as the two limits allow.
fn full_log(random: &mut Random, labels: usize, steps: usize, links: usize, total: usize) -> Log {
    let shape = Shape { links, back: steps, full: true, total, bare: 30, density: 20 };
    generate::log(random, steps, labels, &shape)
}

fn any_pair(random: &mut Random, most_steps: usize) -> (Pattern, Log) {
    let pattern = any_pattern(random);
    let log = any_log(random, pattern.labels, most_steps);
    (pattern, log)
}
