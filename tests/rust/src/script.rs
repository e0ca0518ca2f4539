//! Scripts, in which the cases of the gate's test programs are written (`crates/script/src/lib.rt` says how).

/// The bytes that a script stands for.
pub fn expand(script: &str) -> Vec<u8> {
    let mut out = Vec::new();
    let mut rest = script;
    while !rest.is_empty() {
        rest = match repetition(rest) {
            Some((times, body, after)) => {
                (0..times).for_each(|index| put(&mut out, body, index));
                after
            }
            None => put_one(&mut out, rest, None),
        };
    }
    out
}

/// The count and the body of `\*N{BODY}`, and what follows.
fn repetition(script: &str) -> Option<(usize, &str, &str)> {
    let (times, rest) = script.strip_prefix("\\*")?.split_once('{')?;
    let (body, after) = rest.split_once('}')?;
    Some((times.parse().ok()?, body, after))
}

fn put(out: &mut Vec<u8>, body: &str, index: usize) {
    let mut rest = body;
    while !rest.is_empty() {
        rest = put_one(out, rest, Some(index));
    }
}

/// Puts what the script begins with, and gives what follows. An index is there in a body only.
fn put_one<'a>(out: &mut Vec<u8>, script: &'a str, index: Option<usize>) -> &'a str {
    let after = &script[1..];
    if !script.starts_with('\\') {
        out.push(script.as_bytes()[0]);
        return after;
    }
    match (after.bytes().next(), index) {
        (Some(b'n'), _) => out.push(b'\n'),
        (Some(b'r'), _) => out.push(b'\r'),
        (Some(b't'), _) => out.push(b'\t'),
        (Some(b'x'), _) => {
            out.push(u8::from_str_radix(&after[1..3], 16).expect("two hexadecimal digits"));
            return &after[3..];
        }
        (Some(letter @ (b'i' | b'p')), Some(index)) => {
            let digits = after[1..].bytes().take_while(u8::is_ascii_digit).count();
            let more: usize = after[1..1 + digits].parse().unwrap_or(0);
            let number = if letter == b'i' { index + more } else { index.saturating_sub(more) };
            out.extend(number.to_string().bytes());
            return &after[1 + digits..];
        }
        _ => panic!("no escape: {script}"),
    }
    &after[1..]
}
