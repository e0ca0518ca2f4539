//! Patterns: the text format, and the pattern buffer.

use crate::text::{fields, lines, number, refuse, unless, Cause, Field, Refusal};

pub const LENGTH: usize = 2_074;
pub const MOST_BYTES: usize = 16_384;
pub const MOST_LABELS: usize = 16;
pub const MOST_BEADS: usize = 8;
pub const MOST_STATES: usize = 16;

#[derive(Clone, Copy, Debug, PartialEq)]
pub enum Rule {
    Some = 1,
    All = 2,
}

#[derive(Clone, Debug)]
pub struct State {
    pub is_final: bool,
    /// For each label the set of next states.
    pub next: Vec<u16>,
}

#[derive(Clone, Debug)]
pub struct Bead {
    pub rule: Rule,
    pub states: Vec<State>,
}

#[derive(Clone, Debug)]
pub struct Pattern {
    pub labels: usize,
    pub beads: Vec<Bead>,
}

/// The four names that every header begins with, and what a wrong one is called.
const NAMES: [(&[u8], &str); 4] =
    [(b"bead", "bead not in place"), (b"rule", "rule not in place"), (b"state", "state not in place"), (b"final", "final not in place")];

/// What a field other than the rule is called if it is no number; all after these are next sets.
const NO_NUMBER: [&str; 4] = ["bead no number", "", "state no number", "final no number"];

/// Reads a text, or gives its refusal: 10 to 16.
pub fn read(text: &[u8]) -> Result<Pattern, Refusal> {
    if text.is_empty() || text.len() > MOST_BYTES {
        return refuse(10);
    }
    let lines = lines(text);
    let (names, causes) = fields(lines[0]);
    unless(11, 1, &causes)?;
    unless(12, 1, &wrong_names(&names))?;
    if lines.len() == 1 {
        unless(13, 1, &[("nothing after the header", 0)])?;
    }
    let mut pattern = Pattern { labels: names.len() - 4, beads: Vec::new() };
    for (index, line) in lines.iter().enumerate().skip(1) {
        add_line(&mut pattern, line, index + 1)?;
    }
    // 15 and 16 only now: they need every bead's state count.
    let mut index = 1;
    for bead in &pattern.beads {
        for state in &bead.states {
            look_at_sets(bead, state, lines[index], index + 1)?;
            index += 1;
        }
    }
    Ok(pattern)
}

/// What is wrong with the names of a header, from left to right; last, that there are too few.
fn wrong_names(names: &[Field]) -> Vec<Cause> {
    let mut causes = Vec::new();
    for (i, name) in names.iter().enumerate() {
        let plain = name.bytes.iter().all(|byte| byte.is_ascii_lowercase() || byte.is_ascii_digit());
        let cause = match NAMES.get(i) {
            Some((fixed, cause)) => (name.bytes != *fixed).then_some(*cause),
            None if i >= NAMES.len() + MOST_LABELS => Some("label too many"),
            None if name.bytes.is_empty() => Some("label empty"),
            None if !plain || name.bytes.len() > 12 => Some("label wrong"),
            None => names[NAMES.len()..i].iter().any(|earlier| earlier.bytes == name.bytes).then_some("label repeated"),
        };
        causes.extend(cause.map(|cause| (cause, name.place)));
    }
    if names.len() < NAMES.len() + 1 {
        causes.push(("names missing", 0));
    }
    causes
}

/// Writes the text of a buffer under a header text, or gives the refusal: 6, 12.
pub fn write(buffer: &[u16], header: &[u8]) -> Result<Vec<u8>, Refusal> {
    let Some(pattern) = Pattern::of_buffer(buffer) else {
        return refuse(6);
    };
    // One line, and that a header of an accepted text with as many labels.
    let mut causes = Vec::new();
    let first_newline = header.iter().position(|&byte| byte == b'\n');
    if first_newline.map(|at| at + 1) != Some(header.len()) {
        causes.push(("not one newline, at the end", 0));
    }
    let (names, of_line) = fields(header);
    causes.extend(of_line);
    causes.extend(wrong_names(&names));
    if names.len() != NAMES.len() + pattern.labels {
        causes.push(("another label count", 0));
    }
    unless(12, 1, &causes)?;
    Ok(pattern.text_under(header))
}

pub fn header(names: &[String]) -> Vec<u8> {
    format!("bead rule state final {}\n", names.join(" ")).into_bytes()
}

/// Adds the state of one line below the header, or gives its refusal.
fn add_line(pattern: &mut Pattern, line: &[u8], at: usize) -> Result<(), Refusal> {
    let (fields, mut causes) = fields(line);
    if fields.len() != 4 + pattern.labels {
        causes.push(("number of fields", 0));
    }
    let numbers: Vec<Option<u16>> = fields.iter().map(|field| number(field.bytes)).collect();
    for (i, field) in fields.iter().enumerate() {
        if i != 1 && numbers[i].is_none() {
            causes.push((NO_NUMBER.get(i).copied().unwrap_or("next set no number"), field.place));
        }
    }
    unless(11, at, &causes)?;
    let numbers: Vec<u16> = numbers.into_iter().map(Option::unwrap_or_default).collect();
    let (bead, state, is_final) = (numbers[0] as usize, numbers[2] as usize, numbers[3]);

    let last = pattern.beads.len();
    let goes_on = last > 0 && bead == last;
    let due = if goes_on { pattern.beads[last - 1].states.len() } else { 0 };
    let wrong_bead = match bead {
        _ if bead > MOST_BEADS => Some("bead over 8"),
        _ if last == 0 && bead != 1 => Some("first bead not 1"),
        _ if !goes_on && bead != last + 1 => Some("bead out of order"),
        _ => None,
    };
    let wrong_state = match state {
        _ if state >= MOST_STATES => Some("state over 15"),
        _ if state == due => None,
        _ if last == 0 => Some("first state not 0"),
        _ if goes_on => Some("state not the last plus 1"),
        _ => Some("state not 0 in the next bead"),
    };
    let wrong_final = (is_final > 1).then_some("final over 1");
    let ranks = [(wrong_bead, 0), (wrong_state, 2), (wrong_final, 3)];
    let causes: Vec<Cause> = ranks.into_iter().filter_map(|(cause, i)| Some((cause?, fields[i].place))).collect();
    unless(13, at, &causes)?;

    let rule = match fields[1].bytes {
        b"SOME" => Some(Rule::Some),
        b"ALL" => Some(Rule::All),
        _ => None,
    };
    // Inside a bead the rule stays, from one bead to the next it changes.
    let wrong_rule = match rule {
        None => Some("neither SOME nor ALL"),
        Some(rule) if last > 0 && goes_on != (rule == pattern.beads[last - 1].rule) => {
            Some(if goes_on { "changed inside a bead" } else { "that of the bead before" })
        }
        _ => None,
    };
    let causes: Vec<Cause> = wrong_rule.map(|cause| (cause, fields[1].place)).into_iter().collect();
    unless(14, at, &causes)?;
    if !goes_on {
        pattern.beads.push(Bead { rule: rule.unwrap(), states: Vec::new() });
    }
    pattern.beads[bead - 1].states.push(State { is_final: is_final == 1, next: numbers[4..].to_vec() });
    Ok(())
}

/// Refuses the line of a state with 15 or 16 if one of its next sets asks for it.
fn look_at_sets(bead: &Bead, state: &State, line: &[u8], at: usize) -> Result<(), Refusal> {
    let lacks = |set: u16| set as usize >> bead.states.len() != 0;
    let not_one = |set: u16| bead.rule == Rule::All && set.count_ones() != 1;
    if !state.next.iter().any(|&set| lacks(set) || not_one(set)) {
        return Ok(());
    }
    let (fields, _) = fields(line);
    let sets: Vec<(u16, usize)> = state.next.iter().copied().zip(fields[4..].iter().map(|field| field.place)).collect();
    let mut causes = Vec::new();
    for (i, &(_, place)) in sets.iter().enumerate().filter(|(_, (set, _))| lacks(*set)) {
        let behind = sets[..i].iter().any(|&(set, _)| not_one(set) && !lacks(set));
        causes.push((if behind { "next set right of one for 16" } else { "next set" }, place));
    }
    unless(15, at, &causes)?;
    let causes: Vec<Cause> = sets.iter().filter(|(set, _)| not_one(*set)).map(|&(_, place)| ("next set", place)).collect();
    unless(16, at, &causes)
}

impl Pattern {
    /// A text that gives this pattern, if one does; the names are the labels'.
    pub fn text(&self, names: &[String]) -> Vec<u8> {
        self.text_under(&header(names))
    }

    /// The header text as it is, then a line for each bead and state.
    pub fn text_under(&self, header: &[u8]) -> Vec<u8> {
        let mut text = header.to_vec();
        for (b, bead) in self.beads.iter().enumerate() {
            let rule = if bead.rule == Rule::Some { "SOME" } else { "ALL" };
            for (s, state) in bead.states.iter().enumerate() {
                let next: Vec<String> = state.next.iter().map(u16::to_string).collect();
                text.extend(format!("{} {} {} {} {}\n", b + 1, rule, s, state.is_final as u16, next.join(" ")).bytes());
            }
        }
        text
    }

    /// The numbers that an accepted reading puts into the pattern buffer.
    pub fn buffer(&self) -> Vec<u16> {
        let mut buffer = vec![0; LENGTH];
        buffer[0] = self.labels as u16;
        buffer[1] = self.beads.len() as u16;
        for (b, bead) in self.beads.iter().enumerate() {
            buffer[2 + b] = bead.rule as u16;
            buffer[10 + b] = bead.states.len() as u16;
            for (s, state) in bead.states.iter().enumerate() {
                buffer[18 + b] |= (state.is_final as u16) << s;
                let at = 26 + 256 * b + 16 * s;
                buffer[at..at + state.next.len()].copy_from_slice(&state.next);
            }
        }
        buffer
    }

    /// The pattern in a buffer that some accepted text gives. It is found by writing the text that the numbers ask for and reading it:
    /// the reader alone decides, and a number that the text does not carry shows as a difference of the buffers.
    pub fn of_buffer(buffer: &[u16]) -> Option<Pattern> {
        let (labels, beads) = (buffer[0] as usize, buffer[1] as usize);
        if labels > MOST_LABELS || beads > MOST_BEADS {
            return None;
        }
        let mut asked = Pattern { labels, beads: Vec::new() };
        for b in 0..beads {
            let rule = match buffer[2 + b] {
                1 => Rule::Some,
                2 => Rule::All,
                _ => return None,
            };
            let count = buffer[10 + b] as usize;
            if count > MOST_STATES {
                return None;
            }
            let state = |s: usize| {
                let at = 26 + 256 * b + 16 * s;
                State { is_final: buffer[18 + b] >> s & 1 == 1, next: buffer[at..at + labels].to_vec() }
            };
            asked.beads.push(Bead { rule, states: (0..count).map(state).collect() });
        }
        let names: Vec<String> = (0..labels).map(|label| format!("label{label}")).collect();
        let given = read(&asked.text(&names)).ok()?;
        (given.buffer() == buffer[..LENGTH]).then_some(given)
    }
}
