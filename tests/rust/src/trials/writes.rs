//! Trials of the two calls that write.

use super::*;
use crate::headers;

/// A text buffer far longer than any text.
const FAR: usize = 70_000;

/// Lengths of a text buffer about a text's: none, one byte short, just right, one byte more, far more.
fn about(text: usize) -> [usize; 5] {
    [0, text - 1, text, text + 1, FAR]
}

impl Trials {
    pub fn all_writes(&mut self) {
        self.written_patterns(3_000, "sound", any_pattern);
        self.written_patterns(50, "at all limits", full_pattern);
        self.written_patterns(50, "of one bead with one state", |random| generate::pattern(random, 1, 1, &[1]));
        self.written_logs(3_000, "sound", |random, labels| any_log(random, labels, 40));
        self.written_logs(50, "of step 0 alone", |random, labels| any_log(random, labels, 1));
        self.written_logs(50, "with 8 links a step", |random, labels| full_log(random, labels, 20, 8, 4_096));
        self.written_logs(50, "with 1,024 steps and 4,096 links", |random, labels| full_log(random, labels, 1_024, 8, 4_096));
        self.header_texts(10);
        self.damaged_header_texts(10_000);
        self.label_counts(1_000);
        self.damaged_writes(10_000);
        self.sets_of_faults(200);
    }

    fn written_patterns(&mut self, times: usize, what: &str, make: fn(&mut Random) -> Pattern) {
        let random = &mut self.random;
        for _ in 0..times {
            let pattern = make(random);
            let header = pattern::header(&generate::names(random, pattern.labels));
            for room in about(pattern.text_under(&header).len()) {
                self.comparison.write_pattern(&pattern.buffer(), roomy(random, pattern::LENGTH), &header, room);
            }
        }
        println!("patterns written, {what}: {times}, each into text buffers of 5 lengths");
    }

    fn written_logs(&mut self, times: usize, what: &str, make: fn(&mut Random, usize) -> Log) {
        let random = &mut self.random;
        for _ in 0..times {
            let labels = random.within(1, 16);
            let log = make(random, labels);
            for room in about(log.text(log::WRITTEN).len()) {
                self.comparison.write_log(&log.buffer(), roomy(random, log::LENGTH), labels as u16, room);
            }
        }
        println!("logs written, {what}: {times}, each into text buffers of 5 lengths");
    }

    /// Every kind of header text, for every label count. What is wrong with a header text comes before a text buffer that is too short.
    fn header_texts(&mut self, times: usize) {
        let random = &mut self.random;
        let (mut sound, mut at_fault) = (0, 0);
        for labels in (0..times).flat_map(|_| 1..=16) {
            let beads = random.within(1, 8);
            let pattern = generate::pattern(random, labels, beads, &[1, 2, 4]);
            let (names, rows) = (generate::names(random, labels), pattern.text_under(&[]));
            let headers = headers::sound(&names);
            sound = headers.len();
            for (what, header) in headers {
                let text = header.len() + rows.len();
                for room in about(text) {
                    let number = self.comparison.write_pattern(&pattern.buffer(), roomy(random, pattern::LENGTH), &header, room);
                    self.comparison.must_be(if room < text { 8 } else { 0 }, number, what);
                }
            }
            let headers = headers::at_fault(&names, &rows);
            at_fault = headers.len();
            for (what, header) in headers {
                for room in [0, header.len(), header.len() + rows.len(), FAR] {
                    let number = self.comparison.write_pattern(&pattern.buffer(), roomy(random, pattern::LENGTH), &header, room);
                    self.comparison.must_be(12, number, what);
                }
            }
        }
        println!("header texts of {sound} kinds that are sound and {at_fault} that are at fault: {times} for each label count");
    }

    /// Header texts damaged at random.
    fn damaged_header_texts(&mut self, times: usize) {
        let random = &mut self.random;
        let mut still = 0;
        for _ in 0..times {
            let pattern = any_pattern(random);
            let sound = pattern::header(&generate::names(random, pattern.labels));
            let header = damaged(random, sound, 2, 300);
            let text = header.len() + pattern.text_under(&[]).len();
            let room = random.pick(&about(text));
            let number = self.comparison.write_pattern(&pattern.buffer(), roomy(random, pattern::LENGTH), &header, room);
            still += (number != 12) as usize;
        }
        println!("header texts damaged once or twice: {times}, of them still sound: {still}");
    }

    /// Sound logs under label counts that fit, that are too small for a label of theirs and that are none.
    fn label_counts(&mut self, times: usize) {
        let random = &mut self.random;
        let counts = [0, 1, 2, 3, 8, 15, 16, 17, 18, 256, 65_535];
        for _ in 0..times {
            let labels = random.within(1, 16);
            let log = any_log(random, labels, 12);
            let text = log.text(log::WRITTEN).len();
            for count in counts {
                let room = random.pick(&about(text));
                self.comparison.write_log(&log.buffer(), roomy(random, log::LENGTH), count, room);
            }
        }
        println!("logs written under {} label counts from 0 to 65,535: {times}", counts.len());
    }

    /// One or two numbers changed in the buffer. What is then still accepted has another text.
    fn damaged_writes(&mut self, times: usize) {
        let random = &mut self.random;
        let (mut patterns, mut logs) = (0, 0);
        for _ in 0..times {
            let (pattern, log) = any_pair(random, 12);
            let header = pattern::header(&generate::names(random, pattern.labels));
            let (mut pattern_buffer, mut log_buffer) = (pattern.buffer(), log.buffer());
            for _ in 0..random.within(1, 2) {
                damage::buffer(random, &mut pattern_buffer);
                damage::buffer(random, &mut log_buffer);
            }

            let sound = pattern.text_under(&header);
            let written = pattern::write(&pattern_buffer, &header);
            let room = random.pick(&about(written.as_ref().map_or(sound.len(), Vec::len)));
            self.comparison.write_pattern(&pattern_buffer, roomy(random, pattern::LENGTH), &header, room);
            if let Ok(text) = written {
                patterns += 1;
                self.comparison.must_hold((text != sound) == (pattern_buffer != pattern.buffer()), "other patterns have other texts");
            }

            let sound = log.text(log::WRITTEN);
            let count = pattern.labels as u16;
            let written = log::write(&log_buffer, count);
            let room = random.pick(&about(written.as_ref().map_or(sound.len(), Vec::len)));
            self.comparison.write_log(&log_buffer, roomy(random, log::LENGTH), count, room);
            if let Ok(text) = written {
                logs += 1;
                self.comparison.must_hold((text != sound) == (log_buffer != log.buffer()), "other logs have other texts");
            }
        }
        println!("writes of damaged buffers: {times} of each call, of them still what some texts give: {patterns} patterns, {logs} logs");
    }

    /// Each set of faults that a call can have at once: the first in the order of refusals is given.
    fn sets_of_faults(&mut self, times: usize) {
        let random = &mut self.random;
        let first = |order: [u16; 4], faults: usize| (0..4).find(|i| faults >> i & 1 == 1).map_or(0, |i| order[i]);
        for faults in (0..times).flat_map(|_| 0..16) {
            let has = |i: usize| faults >> i & 1 == 1;
            let (pattern, log) = any_pair(random, 12);

            let names = generate::names(random, pattern.labels);
            let rows = pattern.text_under(&[]);
            let wrong = headers::at_fault(&names, &rows);
            let header = if has(2) { wrong[random.below(wrong.len())].1.clone() } else { pattern::header(&names) };
            let mut buffer = pattern.buffer();
            if has(1) {
                // No rule has this number.
                buffer[2] = 3;
            }
            let length = if has(0) { random.below(pattern::LENGTH) } else { roomy(random, pattern::LENGTH) };
            let room = if has(3) { random.below(rows.len()) } else { FAR };
            let number = self.comparison.write_pattern(&buffer, length, &header, room);
            self.comparison.must_be(first([2, 6, 12, 8], faults), number, "write_pattern with several faults");

            let count = if has(1) { random.pick(&[0, 17, 65_535]) } else { pattern.labels as u16 };
            let mut buffer = log.buffer();
            if has(2) {
                // Step 0 has no labels.
                buffer[1] = 1;
            }
            let length = if has(0) { random.below(log::LENGTH) } else { roomy(random, log::LENGTH) };
            let room = if has(3) { random.below(log.text(log::WRITTEN).len()) } else { FAR };
            let number = self.comparison.write_log(&buffer, length, count, room);
            self.comparison.must_be(first([1, 5, 7, 8], faults), number, "write_log with several faults");
        }
        println!("each set of faults that a write can have at once: {times} of each call");
    }
}
