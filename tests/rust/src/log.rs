//! Logs: the text format, and the log buffer.

use crate::text::{fields, lines, number, refuse, unless, Refusal};

pub const LENGTH: usize = 7_170;
pub const MOST_BYTES: usize = 65_535;
pub const MOST_STEPS: usize = 1_024;
pub const MOST_LINKS: usize = 4_096;
pub const MOST_LINKS_A_STEP: usize = 8;
pub const NAMES: [&str; 4] = ["vertex", "board", "labels", "preds"];
/// The order of the columns in which a log is written: that of the names.
pub const WRITTEN: [usize; 4] = [0, 1, 2, 3];

// Where the parts of the buffer begin; the step count is at 0.
const LABELS: usize = 1;
const BOARDS: usize = 1_025;
const BEGINNINGS: usize = 2_049;
const LINKS: usize = 3_074;

#[derive(Clone, Debug)]
pub struct Step {
    pub board: u16,
    pub labels: u16,
    pub links: Vec<u16>,
}

#[derive(Clone, Debug)]
pub struct Log {
    pub steps: Vec<Step>,
}

/// Reads a text under a label count of 1 to 16, or gives its refusal: 20 to 26.
pub fn read(text: &[u8], label_count: u16) -> Result<Log, Refusal> {
    if text.is_empty() || text.len() > MOST_BYTES {
        return refuse(20);
    }
    let lines = lines(text);
    let columns = columns(lines[0])?;
    if lines.len() == 1 {
        unless(26, 1, &[("no step at all", 0)])?;
    }
    let mut log = Log { steps: Vec::new() };
    let mut links = 0;
    for (index, line) in lines.iter().enumerate().skip(1) {
        let step = read_step(line, columns, index - 1, links, label_count)?;
        links += step.links.len();
        log.steps.push(step);
    }
    Ok(log)
}

/// Writes the text of a buffer under a label count of 1 to 16, or gives the refusal: 7.
pub fn write(buffer: &[u16], label_count: u16) -> Result<Vec<u8>, Refusal> {
    match Log::of_buffer(buffer, label_count) {
        Some(log) => Ok(log.text(WRITTEN)),
        None => refuse(7),
    }
}

/// The column of each of the four names, or the header's refusal.
fn columns(line: &[u8]) -> Result<[usize; 4], Refusal> {
    let (fields, causes) = fields(line);
    unless(21, 1, &causes)?;
    let column = |name: &str| fields.iter().position(|field| field.bytes == name.as_bytes());
    let columns = NAMES.map(column);
    let mut causes = Vec::new();
    for (i, field) in fields.iter().enumerate() {
        if i >= NAMES.len() {
            causes.push(("fifth name", field.place));
        } else if !NAMES.iter().any(|name| field.bytes == name.as_bytes()) {
            causes.push(("none of the four", field.place));
        } else if !columns.contains(&Some(i)) {
            // A column is where its name stands first.
            causes.push(("name repeated", field.place));
        }
    }
    if columns.contains(&None) {
        causes.push(("names missing", 0));
    }
    unless(22, 1, &causes)?;
    Ok(columns.map(Option::unwrap_or_default))
}

/// The step of one line below the header, which is to have this number, or its refusal.
fn read_step(line: &[u8], columns: [usize; 4], step: usize, links_before: usize, label_count: u16) -> Result<Step, Refusal> {
    let at = step + 2;
    let (fields, mut causes) = fields(line);
    if fields.len() != 4 {
        causes.push(("number of fields", 0));
    }
    let (mut vertex, mut board, mut labels, mut links) = (None, None, None, None);
    for (i, field) in fields.iter().enumerate() {
        let value = number(field.bytes);
        let cause = match columns.iter().position(|&column| column == i) {
            Some(0) => {
                vertex = value;
                value.is_none().then_some("vertex no number")
            }
            Some(1) => {
                board = value;
                value.map_or(Some("board no number"), |board| (board > 255).then_some("board over 255"))
            }
            Some(2) => {
                labels = value;
                value.is_none().then_some("labels no number")
            }
            Some(_) => {
                links = linked(field.bytes);
                links.is_none().then_some("preds no list")
            }
            None => None,
        };
        causes.extend(cause.map(|cause| (cause, field.place)));
    }
    unless(21, at, &causes)?;
    let (Some(vertex), Some(board), Some(labels), Some(links)) = (vertex, board, labels, links) else {
        unreachable!("four fields, and each has its value");
    };
    let place = columns.map(|column| fields[column].place);
    let one = |number: u16, cause: Option<&'static str>, column: usize| match cause {
        Some(cause) => unless(number, at, &[(cause, place[column])]),
        None => Ok(()),
    };

    one(23, (vertex as usize != step).then_some("vertex"), 0)?;
    let wrong_links = match links[..] {
        [] => (step > 0).then_some("none past step 0"),
        _ if step == 0 => Some("links of step 0"),
        _ if links.windows(2).any(|pair| pair[0] >= pair[1]) => Some("not rising"),
        _ => links.iter().any(|&link| link as usize >= step).then_some("not smaller"),
    };
    one(24, wrong_links, 3)?;
    let wrong_labels = match step {
        0 if labels != 0 => Some("labels of step 0"),
        _ => (labels as u32 >> label_count != 0).then_some("past the label count"),
    };
    one(25, wrong_labels, 2)?;

    let many = if links.len() > MOST_LINKS_A_STEP {
        Some("ninth link")
    } else {
        (links_before + links.len() > MOST_LINKS).then_some("4,097th link")
    };
    match (step >= MOST_STEPS, many) {
        (true, None) => one(26, Some("step over 1,023"), 0)?,
        (false, many) => one(26, many, 3)?,
        (true, Some(_)) if place[0] < place[3] => one(26, Some("both, vertex further left"), 0)?,
        (true, Some(_)) => one(26, Some("both, preds further left"), 3)?,
    }
    Ok(Step { board, labels, links })
}

/// The links of a `preds` field: none, or numbers joined by single commas.
fn linked(preds: &[u8]) -> Option<Vec<u16>> {
    match preds {
        b"-" => Some(Vec::new()),
        _ => preds.split(|&byte| byte == b',').map(number).collect(),
    }
}

impl Log {
    /// A text that gives this log, if one does, with the columns in this order.
    pub fn text(&self, order: [usize; 4]) -> Vec<u8> {
        let line = |values: [String; 4]| order.map(|i| values[i].clone()).join(" ") + "\n";
        let mut text = line(NAMES.map(String::from));
        for (v, step) in self.steps.iter().enumerate() {
            let links: Vec<String> = step.links.iter().map(u16::to_string).collect();
            let preds = if links.is_empty() { "-".to_string() } else { links.join(",") };
            text += &line([v.to_string(), step.board.to_string(), step.labels.to_string(), preds]);
        }
        text.into_bytes()
    }

    /// The numbers that an accepted reading puts into the log buffer.
    pub fn buffer(&self) -> Vec<u16> {
        let mut buffer = vec![0; LENGTH];
        buffer[0] = self.steps.len() as u16;
        let mut begin = 0;
        for (v, step) in self.steps.iter().enumerate() {
            buffer[LABELS + v] = step.labels;
            buffer[BOARDS + v] = step.board;
            let end = begin + step.links.len();
            buffer[LINKS + begin..LINKS + end].copy_from_slice(&step.links);
            buffer[BEGINNINGS + v + 1] = end as u16;
            begin = end;
        }
        buffer
    }

    /// The log in a buffer that some text accepted under this label count gives; found as for patterns, by writing and reading the text.
    pub fn of_buffer(buffer: &[u16], label_count: u16) -> Option<Log> {
        let steps = buffer[0] as usize;
        if steps > MOST_STEPS {
            return None;
        }
        let mut asked = Log { steps: Vec::new() };
        for v in 0..steps {
            let (begin, end) = (buffer[BEGINNINGS + v] as usize, buffer[BEGINNINGS + v + 1] as usize);
            let links = buffer[LINKS..LENGTH].get(begin..end)?.to_vec();
            asked.steps.push(Step { board: buffer[BOARDS + v], labels: buffer[LABELS + v], links });
        }
        let given = read(&asked.text(WRITTEN), label_count).ok()?;
        (given.buffer() == buffer[..LENGTH]).then_some(given)
    }
}
