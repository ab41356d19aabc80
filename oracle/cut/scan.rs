//! Finding items in Rust text by name, without parsing more than brackets.

use std::ops::Range;

/// The index just past what begins at `at`: a whole comment, string or
/// character, else one byte. A walk by it meets only brackets that are code.
fn next(text: &[u8], at: usize) -> usize {
    let rest = &text[at..];
    if rest.starts_with(b"//") {
        return at + past(rest, 0, b"\n");
    }
    if rest.starts_with(b"/*") {
        return at + past(rest, 2, b"*/");
    }
    match rest[0] {
        b'"' => at + quoted(rest, b'"'),
        // Two bytes on is a quote or an escape: a character, not a lifetime.
        b'\'' if rest.get(2) == Some(&b'\'') || rest.get(1) == Some(&b'\\') => {
            at + quoted(rest, b'\'')
        }
        _ => at + 1,
    }
}

/// The index past the first `end` at or after `from`, or the text's length.
fn past(text: &[u8], from: usize, end: &[u8]) -> usize {
    (from..text.len())
        .find(|&at| text[at..].starts_with(end))
        .map_or(text.len(), |at| at + end.len())
}

/// The length of the quoted run that `text` begins with.
fn quoted(text: &[u8], quote: u8) -> usize {
    let mut at = 1;
    while at < text.len() && text[at] != quote {
        at += if text[at] == b'\\' { 2 } else { 1 };
    }
    at + 1
}

/// The index past the item or block that begins at `from`: past the brace that
/// closes its first open one, or past a `;` or `,` outside all brackets if
/// `stop` names it.
pub fn end_of(text: &[u8], from: usize, stop: u8) -> Option<usize> {
    let mut depth = 0;
    let mut at = from;
    while at < text.len() {
        match text[at] {
            b'(' | b'[' | b'{' => depth += 1,
            b')' | b']' => depth -= 1,
            b'}' if depth == 1 => return Some(at + 1),
            b'}' => depth -= 1,
            byte if byte == stop && depth == 0 => return Some(at + 1),
            _ => {}
        }
        at = next(text, at);
    }
    None
}

fn is_word(byte: u8) -> bool {
    byte.is_ascii_alphanumeric() || byte == b'_'
}

/// Where `pattern` stands in `text`; an identifier at either end of it matches
/// only as a whole.
pub fn places(text: &str, pattern: &str) -> Vec<usize> {
    let (bytes, wanted) = (text.as_bytes(), pattern.as_bytes());
    let cut_word = |at: usize| is_word(bytes[at]) && at > 0 && is_word(bytes[at - 1]);
    let whole = |&at: &usize| {
        let end = at + wanted.len();
        !cut_word(at) && !(end < bytes.len() && cut_word(end))
    };
    let found = text.match_indices(pattern).map(|(at, _)| at);
    found.filter(whole).collect()
}

/// The item within `scope` whose first line is `header` and what follows it,
/// with the attributes above it. An error unless there is exactly one.
pub fn item(text: &str, scope: &Range<usize>, header: &str) -> Result<Range<usize>, String> {
    let mut found = Vec::new();
    let mut at = scope.start;
    let mut attributes = None;
    for line in text[scope.clone()].split_inclusive('\n') {
        let code = line.trim_start();
        let bare = code.strip_prefix("pub ").unwrap_or(code);
        if bare.starts_with(header) && places(bare, header).first() == Some(&0) {
            let end = end_of(text.as_bytes(), at, b';').ok_or(format!("{header}: no end"))?;
            found.push(attributes.unwrap_or(at)..end);
        }
        let carries = code.starts_with("#[");
        attributes = carries.then(|| attributes.unwrap_or(at));
        at += line.len();
    }
    match found.len() {
        1 => Ok(found.remove(0)),
        n => Err(format!("{header}: found {n} times")),
    }
}

/// Blanks all of each `cfg_if!` but its last branch, newlines kept so that
/// line numbers stay true. Gives the text and how many there were.
pub fn take_last_branches(text: &str) -> Result<(String, usize), String> {
    let starts = places(text, "cfg_if::cfg_if!");
    let mut bytes = text.as_bytes().to_vec();
    for &start in &starts {
        let whole = end_of(text.as_bytes(), start, b';').ok_or("cfg_if: no end")?;
        let other = text[start..whole].find("} else {").ok_or("cfg_if: no else")? + start;
        let branch = other + "} else {".len();
        let end = end_of(text.as_bytes(), branch - 1, b';').ok_or("cfg_if: no branch")?;
        for at in (start..branch).chain(end - 1..whole) {
            if bytes[at] != b'\n' {
                bytes[at] = b' ';
            }
        }
    }
    let text = String::from_utf8(bytes).map_err(|e| e.to_string())?;
    Ok((text, starts.len()))
}
