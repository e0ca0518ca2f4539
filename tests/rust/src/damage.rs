//! Damage to texts and buffers. What it leaves may still be acceptable; the reference decides.

use crate::random::Random;
use crate::text::number;

/// Fields that are odd in some place of some text; the first is empty.
const ODD: &str = " 0 1 2 3 8 9 15 16 17 255 256 1023 1024 4096 65535 65536 99999999999999999999 00 02 +1 -1 - -- 1, ,1 0,,1 0,1 2,2 1,0 \
                   0,65536 0,01 0,- SOME ALL some ALLL bead vertex abcdefghijklm";

/// Bytes that matter to a reader: at the edges of what a line, a field, a number or a name may hold.
const BYTES: &[u8] = b"\n\r\t\0 -,.0129:/azAZ`{~\x1f\x7f\x80\xff";

/// The text with one damage. The limit is the most bytes that its format takes.
pub fn text(random: &mut Random, text: &[u8], limit: usize) -> Vec<u8> {
    if text.is_empty() {
        return text.to_vec();
    }
    let at = random.below(text.len());
    match random.below(100) {
        0..=9 => [&text[..at], &[random.pick(BYTES)], &text[at + 1..]].concat(),
        10..=14 => [&text[..at], &[random.pick(BYTES)], &text[at..]].concat(),
        15..=19 => [&text[..at], &text[at + 1..]].concat(),
        20..=21 => text[..at].to_vec(),
        22 => text[..text.len() - 1].to_vec(),
        23 => String::from_utf8_lossy(text).replace('\n', "\r\n").into_bytes(),
        24 => Vec::new(),
        25 => grown(random, text, limit),
        26..=39 => lines(random, text),
        40..=44 => stretched(random, text),
        _ => fields(random, text),
    }
}

/// The text with two to four damages in one line.
pub fn one_line(random: &mut Random, text: &[u8]) -> Vec<u8> {
    let mut lines = split(text);
    let i = random.below(lines.len());
    for _ in 0..random.within(2, 4) {
        if lines[i].is_empty() {
            break;
        }
        let line = lines[i].clone();
        let at = random.below(line.len());
        lines[i] = match random.below(10) {
            0..=1 => [&line[..at], &[random.pick(BYTES)], &line[at + 1..]].concat(),
            2 => stretched(random, &line),
            _ => fields(random, &line),
        };
    }
    lines.concat()
}

/// Grown by its own lines to about the limit: a size that is just right leaves the fault to a line.
fn grown(random: &mut Random, text: &[u8], limit: usize) -> Vec<u8> {
    text.iter().copied().cycle().take(random.within(limit - 1, limit + 1)).collect()
}

fn split(text: &[u8]) -> Vec<Vec<u8>> {
    text.split_inclusive(|&byte| byte == b'\n').map(<[u8]>::to_vec).collect()
}

/// A line dropped, doubled, exchanged with another, emptied or added at the end.
fn lines(random: &mut Random, text: &[u8]) -> Vec<u8> {
    let mut lines = split(text);
    let (i, j) = (random.below(lines.len()), random.below(lines.len()));
    match random.below(6) {
        0 => drop(lines.remove(i)),
        1 => lines.insert(i, lines[i].clone()),
        2 => lines.swap(i, j),
        3 => lines[i] = b"\n".to_vec(),
        4 => lines.push(lines[j].clone()),
        _ => lines.truncate(1),
    }
    lines.concat()
}

/// A line stretched to about 240 bytes, by something that may leave it sound otherwise.
fn stretched(random: &mut Random, text: &[u8]) -> Vec<u8> {
    let mut lines = split(text);
    let i = random.below(lines.len());
    let length = lines[i].len() - 1;
    let more = random.within(239, 242).saturating_sub(length);
    let filler: Vec<u8> = random.pick(&["x", "S", " ", "0,", "1,", "7"]).bytes().cycle().take(more).collect();
    // Beside a space it lengthens a field at its end, and a list of links at its beginning.
    let spaces: Vec<usize> = (0..length).filter(|&at| lines[i][at] == b' ').collect();
    let at = if spaces.is_empty() { 0 } else { random.pick(&spaces) + random.below(2) };
    lines[i].splice(at..at, filler);
    lines.concat()
}

/// A field of a line dropped, doubled, exchanged with another, replaced by an odd one or, if it is a number, changed a little.
fn fields(random: &mut Random, text: &[u8]) -> Vec<u8> {
    let mut lines = split(text);
    let line = random.below(lines.len());
    let end = lines[line].strip_suffix(b"\n").map_or(lines[line].len(), <[u8]>::len);
    let rest = lines[line].split_off(end);
    let mut fields: Vec<Vec<u8>> = lines[line].split(|&byte| byte == b' ').map(<[u8]>::to_vec).collect();
    let (i, j) = (random.below(fields.len()), random.below(fields.len()));
    match random.below(12) {
        0 => drop(fields.remove(i)),
        1 => fields.insert(i, fields[i].clone()),
        2 => fields.swap(i, j),
        3..=7 => fields[i] = random.pick(&ODD.split(' ').collect::<Vec<_>>()).into(),
        8 => fields[i] = listed(random, &fields[i]),
        _ => fields[i] = nearby(random, &fields[i]),
    }
    lines[line] = [fields.join(&b' '), rest].concat();
    lines.concat()
}

/// A number near the one given, or the field itself if it is none.
fn nearby(random: &mut Random, field: &[u8]) -> Vec<u8> {
    match number(field) {
        Some(value) => other(random, value).to_string().into(),
        None => field.to_vec(),
    }
}

/// One more, one less, or another in one bit.
fn other(random: &mut Random, value: u16) -> u16 {
    match random.below(3) {
        0 => value.wrapping_add(1),
        1 => value.wrapping_sub(1),
        _ => value ^ 1 << random.below(16),
    }
}

/// A list of links with one more, or the other way round.
fn listed(random: &mut Random, field: &[u8]) -> Vec<u8> {
    let mut list: Vec<Vec<u8>> = field.split(|&byte| byte == b',').map(<[u8]>::to_vec).collect();
    match random.below(3) {
        0 => list.reverse(),
        1 => list.push(list[0].clone()),
        _ => list.push(random.below(20).to_string().into()),
    }
    list.join(&b',')
}

/// One number of the buffer changed. Mostly one in use: elsewhere every change is a fault.
pub fn buffer(random: &mut Random, buffer: &mut [u16]) {
    let used: Vec<usize> = (0..buffer.len()).filter(|&at| buffer[at] != 0).collect();
    let at = if !used.is_empty() && random.percent(70) { random.pick(&used) } else { random.below(buffer.len()) };
    buffer[at] = match random.below(6) {
        0 => 0,
        1 => random.below(17) as u16,
        2 => random.below(65_536) as u16,
        _ => other(random, buffer[at]),
    };
}
