//! Each call of the library against the reference: the answer, and every number of every buffer.

use crate::judge::{self, RESULT_LENGTH, ROW_LENGTH, WORK_LENGTH};
use crate::library;
use crate::log::{self, Log};
use crate::pattern::{self, Pattern};
use crate::random::{Element, Random};
use crate::tally::Tally;
use crate::text::{refuse, Refusal};

/// The documented lengths of the judge's buffers in the order of refusals 1 to 4: log, pattern, result, work.
pub const LENGTHS: [usize; 4] = [log::LENGTH, pattern::LENGTH, RESULT_LENGTH, WORK_LENGTH];

/// A buffer lent to the library, with noise on both sides: a write that misses it is seen, and so is one past its documented length.
struct Lent<T> {
    all: Vec<T>,
    as_lent: Vec<T>,
    length: usize,
}

const MARGIN: usize = 64;

impl<T: Element> Lent<T> {
    /// A buffer of this length that starts with these numbers, or as many of them as it holds; all else is noise.
    fn new(random: &mut Random, start: &[T], length: usize) -> Lent<T> {
        let mut all = random.noise(MARGIN + length + MARGIN);
        let held = start.len().min(length);
        all[MARGIN..MARGIN + held].copy_from_slice(&start[..held]);
        Lent { as_lent: all.clone(), all, length }
    }

    fn part(&mut self) -> &mut [T] {
        &mut self.all[MARGIN..MARGIN + self.length]
    }

    /// Whether the buffer starts with these numbers and all else is as it was.
    fn became(&self, start: &[T]) -> bool {
        let (before, after) = (MARGIN, MARGIN + start.len());
        self.all[..before] == self.as_lent[..before] && self.all[before..after] == *start && self.all[after..] == self.as_lent[after..]
    }

    fn unchanged(&self) -> bool {
        self.became(&[])
    }
}

pub struct Comparison {
    pub tally: Tally,
    noise: Random,
}

impl Comparison {
    pub fn new() -> Comparison {
        Comparison { tally: Tally::default(), noise: Random::new(0x0150_1ADE_0D01) }
    }

    pub fn read_pattern(&mut self, text: &[u8], length: usize) {
        let expected = if length < pattern::LENGTH { refuse(2) } else { pattern::read(text) };
        let mut lent = Lent::new(&mut self.noise, &[], length);
        let mut lent_text = text.to_vec();
        let answer = library::read_pattern(&mut lent_text, lent.part());
        let kept = lent_text == text
            && match &expected {
                Ok(pattern) => lent.became(&pattern.buffer()),
                Err(_) => lent.unchanged(),
            };
        let expected = expected.map(|pattern| pattern.beads.len());
        self.settle("read_pattern", expected, answer, kept, || format!("text \"{}\"", text.escape_ascii()));
    }

    pub fn read_log(&mut self, text: &[u8], label_count: u16, length: usize) {
        let expected = if length < log::LENGTH {
            refuse(1)
        } else if !(1..=16).contains(&label_count) {
            refuse(5)
        } else {
            log::read(text, label_count)
        };
        let mut lent = Lent::new(&mut self.noise, &[], length);
        let mut lent_text = text.to_vec();
        let answer = library::read_log(&mut lent_text, label_count, lent.part());
        let kept = lent_text == text
            && match &expected {
                Ok(log) => lent.became(&log.buffer()),
                Err(_) => lent.unchanged(),
            };
        let expected = expected.map(|log| log.steps.len());
        self.settle("read_log", expected, answer, kept, || format!("{label_count} labels, text \"{}\"", text.escape_ascii()));
    }

    /// Judges by buffers that start with these numbers and have these lengths, in the order of `LENGTHS`.
    pub fn judge(&mut self, pattern: &[u16], log: &[u16], lengths: [usize; 4]) {
        let expected = judged(pattern, log, lengths);
        let [log_length, pattern_length, result_length, work_length] = lengths;
        let mut lent_pattern = Lent::new(&mut self.noise, pattern, pattern_length);
        let mut lent_log = Lent::new(&mut self.noise, log, log_length);
        let mut result = Lent::new(&mut self.noise, &[], result_length);
        let mut work = Lent::new(&mut self.noise, &[], work_length);
        let answer = library::judge(lent_pattern.part(), lent_log.part(), result.part(), work.part());
        let kept = lent_pattern.unchanged()
            && lent_log.unchanged()
            && match &expected {
                Ok(judged) => result.became(&judged.result) && work.became(&[0; WORK_LENGTH]),
                Err(_) => result.unchanged() && work.unchanged(),
            };
        if let Ok(judged) = &expected {
            self.tally.count_rows(&judged.result[..ROW_LENGTH * judged.steps], judged.beads);
        }
        let expected = expected.map(|judged| judged.whole);
        self.settle("judge", expected, answer, kept, || format!("pattern {}, log {}", in_use(pattern), in_use(log)));
    }

    /// Writes from a buffer of this length that starts with these numbers into a text buffer of that length. Gives the expected number.
    pub fn write_pattern(&mut self, pattern: &[u16], length: usize, header: &[u8], text_length: usize) -> u16 {
        let written = if length < pattern::LENGTH { refuse(2) } else { pattern::write(pattern, header) };
        let mut lent = Lent::new(&mut self.noise, pattern, length);
        let mut lent_header = header.to_vec();
        let mut text = Lent::new(&mut self.noise, &[], text_length);
        let answer = library::write_pattern(lent.part(), &mut lent_header, text.part());
        let given = Given { answer, only_read: lent.unchanged() && lent_header == header, text };
        let read_back = |text: &mut [u8]| {
            let mut again = vec![0; pattern::LENGTH];
            // Accepted: number and byte are 0.
            library::read_pattern(text, &mut again) >> 32 == 0 && again == pattern[..pattern::LENGTH]
        };
        let input = || format!("pattern {}, header \"{}\", text buffer of {text_length}", in_use(pattern), header.escape_ascii());
        self.settle_write("write_pattern", written, given, read_back, input)
    }

    /// The same for a log.
    pub fn write_log(&mut self, log: &[u16], length: usize, label_count: u16, text_length: usize) -> u16 {
        let written = if length < log::LENGTH {
            refuse(1)
        } else if !(1..=16).contains(&label_count) {
            refuse(5)
        } else {
            log::write(log, label_count)
        };
        let mut lent = Lent::new(&mut self.noise, log, length);
        let mut text = Lent::new(&mut self.noise, &[], text_length);
        let answer = library::write_log(lent.part(), label_count, text.part());
        let given = Given { answer, only_read: lent.unchanged(), text };
        let read_back = |text: &mut [u8]| {
            let mut again = vec![0; log::LENGTH];
            // Accepted: number and byte are 0.
            library::read_log(text, label_count, &mut again) >> 32 == 0 && again == log[..log::LENGTH]
        };
        let input = || format!("log {}, {label_count} labels, text buffer of {text_length}", in_use(log));
        self.settle_write("write_log", written, given, read_back, input)
    }

    /// Settles a write; `written` is the text whatever the text buffer's length. What was accepted is read back by the library.
    fn settle_write(
        &mut self,
        call: &'static str,
        written: Result<Vec<u8>, Refusal>,
        given: Given,
        read_back: impl Fn(&mut [u8]) -> bool,
        input: impl Fn() -> String,
    ) -> u16 {
        let Given { answer, only_read, mut text } = given;
        if let Ok(written) = &written {
            self.tally.count_room(call, written.len(), text.length);
        }
        let expected = written.and_then(|written| if text.length < written.len() { refuse(8) } else { Ok(written) });
        let kept = only_read && text.became(expected.as_deref().unwrap_or(&[]));
        let number = expected.as_ref().map_or_else(|refusal| refusal.number, |_| 0);
        self.settle(call, expected.as_ref().map(Vec::len).map_err(|&refusal| refusal), answer, kept, &input);
        if let Ok(written) = expected {
            if read_back(&mut text.part()[..written.len()]) {
                self.tally.count_read_back(call);
            } else {
                self.differs(|| println!("DIFFERENCE in {call}: what was written does not read back; {}", input()));
            }
        }
        number
    }

    /// The number that the papers ask for against the one that the reference gives.
    pub fn must_be(&mut self, number: u16, given: u16, what: &str) {
        if number != given {
            self.differs(|| println!("DIFFERENCE in the reference: {number} expected, {given} given: {what}"));
        }
    }

    /// The same for a whole refusal: number, line, byte.
    pub fn must_refuse<T>(&mut self, refusal: (u16, usize, usize), given: &Result<T, Refusal>, what: &str) {
        let given = given.as_ref().err().map_or((0, 0, 0), |given| (given.number, given.line, given.byte));
        if refusal != given {
            self.differs(|| println!("DIFFERENCE in the reference: {refusal:?} expected, {given:?} given: {what}"));
        }
    }

    /// What the papers ask for, of the reference.
    pub fn must_hold(&mut self, holds: bool, what: &str) {
        if !holds {
            self.differs(|| println!("DIFFERENCE in the reference: {what}"));
        }
    }

    /// Counts a difference. The first few are enough to look into.
    fn differs(&mut self, print: impl Fn()) {
        self.tally.differences += 1;
        if self.tally.differences <= 5 {
            print();
        }
    }

    fn settle(&mut self, call: &'static str, expected: Result<usize, Refusal>, answer: u64, kept: bool, input: impl Fn() -> String) {
        let (number, line, byte, count) = match expected {
            Ok(count) => (0, 0, 0, count),
            Err(refusal) => (refusal.number, refusal.line, refusal.byte, 0),
        };
        self.tally.count_answer(call, number);
        if let Err(refusal) = expected {
            self.tally.count_cause(call, refusal);
        }
        if answer != ((byte as u64) << 48) + (u64::from(number) << 32) + ((line as u64) << 16) + count as u64 || !kept {
            self.differs(|| {
                let (b, n, l, c) = (answer >> 48, answer >> 32 & 0xffff, answer >> 16 & 0xffff, answer & 0xffff);
                println!(
                    "DIFFERENCE in {call}: {number} line {line} byte {byte} count {count} expected, {n} line {l} byte {b} count {c} given"
                );
                println!("  buffers as expected: {kept}; {}", input());
            });
        }
    }
}

/// What a call that writes gave: the answer, whether what it only reads is as it was, and the text buffer.
struct Given {
    answer: u64,
    only_read: bool,
    text: Lent<u8>,
}

/// What an accepted judging leaves, and what of it is counted.
struct Judged {
    result: Vec<u16>,
    beads: usize,
    steps: usize,
    whole: usize,
}

fn judged(pattern: &[u16], log: &[u16], lengths: [usize; 4]) -> Result<Judged, Refusal> {
    if let Some(short) = (0..4).find(|&i| lengths[i] < LENGTHS[i]) {
        return refuse(short as u16 + 1);
    }
    let Some(pattern) = Pattern::of_buffer(pattern) else {
        return refuse(6);
    };
    let Some(log) = Log::of_buffer(log, pattern.labels as u16) else {
        return refuse(7);
    };
    let rows = judge::rows(&pattern, &log);
    let beads = pattern.beads.len();
    let mut result = rows.concat();
    result.resize(RESULT_LENGTH, 0);
    Ok(Judged { result, beads, steps: rows.len(), whole: rows.iter().filter(|row| row[0] >> (beads - 1) & 1 == 1).count() })
}

/// The numbers of a buffer that are not 0, each after its place.
fn in_use(buffer: &[u16]) -> String {
    buffer.iter().enumerate().filter(|(_, number)| **number != 0).map(|(at, number)| format!("{at}:{number} ")).collect()
}
