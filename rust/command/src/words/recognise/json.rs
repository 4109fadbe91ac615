//! JSON, as far as its beginning must be known to tell it from other texts in brackets.

/// Whether it is an object or a list, by its brackets and its first element.
pub fn is_json(source: &[u8]) -> bool {
    let source = source.trim_ascii();
    let closed = matches!(source, [b'{', .., b'}'] | [b'[', .., b']']);
    // Where the list ends behind its first element, nothing may follow.
    let ended = || match first_of_list(source) {
        Some([b']', rest @ ..]) => rest.is_empty(),
        _ => true,
    };
    closed && begins_container(source) && ended()
}

fn begins_container(mut text: &[u8]) -> bool {
    // Lists in lists, of any depth.
    while let [b'[', rest @ ..] = text {
        let rest = rest.trim_ascii_start();
        if !matches!(rest, [b'[' | b'{', ..]) {
            return first_of_list(text).is_some_and(|rest| matches!(rest, [b',' | b']', ..]));
        }
        text = rest;
    }
    let rest = text.strip_prefix(b"{").map(<[u8]>::trim_ascii_start);
    let rest = rest.and_then(behind_string);
    rest.is_some_and(|rest| rest.trim_ascii_start().starts_with(b":"))
}

/// What stands behind the string or number that is the first of a list.
fn first_of_list(text: &[u8]) -> Option<&[u8]> {
    let text = text.strip_prefix(b"[")?.trim_ascii_start();
    let rest = behind_string(text).or_else(|| behind_number(text))?;
    Some(rest.trim_ascii_start())
}

/// What stands behind a string.
fn behind_string(text: &[u8]) -> Option<&[u8]> {
    let mut rest = text.strip_prefix(b"\"")?;
    loop {
        rest = match rest {
            [b'"', rest @ ..] => return Some(rest),
            [b'\\', _, rest @ ..] => rest,
            [b' '..=255, rest @ ..] => rest,
            _ => return None,
        }
    }
}

fn behind_number(text: &[u8]) -> Option<&[u8]> {
    let in_number = |byte: &u8| byte.is_ascii_digit() || b"+-.eE".contains(byte);
    let length = text.iter().take_while(|byte| in_number(byte)).count();
    let (number, rest) = text.split_at(length);
    let starts = match number.strip_prefix(b"-").unwrap_or(number) {
        [b'0', digit, ..] => !digit.is_ascii_digit(),
        [digit, ..] => digit.is_ascii_digit(),
        [] => false,
    };
    let is_float = |number: &str| number.parse::<f64>().is_ok();
    (starts && str::from_utf8(number).is_ok_and(is_float)).then_some(rest)
}

/// The text of a string with its quotes unescaped, if it has such. Other escapes stay.
pub fn unescaped(source: &[u8]) -> Option<Vec<u8>> {
    let source = source.trim_ascii();
    let rest = behind_string(source)?;
    let inside = &source[1..source.len() - 1];
    let mut text = Vec::new();
    let mut bytes = inside.iter().copied().peekable();
    while let Some(byte) = bytes.next() {
        let escaped = bytes.next_if(|next| byte == b'\\' && b"\"\\/".contains(next));
        text.push(escaped.unwrap_or(byte));
    }
    (rest.is_empty() && text.len() < inside.len()).then_some(text)
}
