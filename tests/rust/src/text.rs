//! What both formats share: refusals and their causes, lines, fields, numbers.

/// A refusal's number, the line at fault and the byte in it (0 where there is none).
#[derive(Clone, Copy, Debug, PartialEq)]
pub struct Refusal {
    pub number: u16,
    pub line: usize,
    pub byte: usize,
    /// Which cause it was, by a row and rank of the table of bytes, and whether it outranked another cause of the same number.
    pub cause: &'static str,
    pub outranks: bool,
}

/// A refusal that no line is at fault for.
pub fn refuse<T>(number: u16) -> Result<T, Refusal> {
    Err(Refusal { number, line: 0, byte: 0, cause: "", outranks: false })
}

/// One cause of a refusal: what it is called, and its byte.
pub type Cause = (&'static str, usize);

/// Refuses a line if there is a cause. The causes come by rank; the first decides.
pub fn unless(number: u16, line: usize, causes: &[Cause]) -> Result<(), Refusal> {
    match causes.first() {
        None => Ok(()),
        Some(&(cause, byte)) => Err(Refusal { number, line, byte, cause, outranks: causes.len() > 1 }),
    }
}

/// The lines of a text, each with its newline if it has one.
pub fn lines(text: &[u8]) -> Vec<&[u8]> {
    text.split_inclusive(|&byte| byte == b'\n').collect()
}

/// A field of a line, and the place of its first byte; an empty field has the place where it would begin.
#[derive(Clone, Copy)]
pub struct Field<'a> {
    pub place: usize,
    pub bytes: &'a [u8],
}

/// The fields of a line, and what is wrong with the line as a whole: its length, its newline, its bytes.
pub fn fields(line: &[u8]) -> (Vec<Field<'_>>, Vec<Cause>) {
    let mut causes = Vec::new();
    let (line, has_newline) = line.strip_suffix(b"\n").map_or((line, false), |line| (line, true));
    if line.len() > 240 {
        causes.push(("line too long", 0));
    }
    if !has_newline {
        causes.push(("newline missing", 0));
    }
    if let Some(at) = line.iter().position(|byte| !(32..=126).contains(byte)) {
        causes.push(("bad byte", at + 1));
    }
    let mut place = 1;
    let field = |bytes| {
        let field = Field { place, bytes };
        place += bytes.len() + 1;
        field
    };
    (line.split(|&byte| byte == b' ').map(field).collect(), causes)
}

/// A number has one spelling: what parses is spelled again and compared, which shuts out signs and leading zeros.
pub fn number(field: &[u8]) -> Option<u16> {
    let spelled = std::str::from_utf8(field).ok()?;
    let value: u16 = spelled.parse().ok()?;
    (value.to_string() == spelled).then_some(value)
}
