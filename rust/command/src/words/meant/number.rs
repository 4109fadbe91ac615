//! Numbers as people write them.

/// With the minus of the keyboard for those of print.
pub fn numeral(body: &[u8]) -> Vec<u8> {
    let minus = ["\u{2212}", "\u{2013}"];
    let digits = minus
        .iter()
        .find_map(|minus| body.strip_prefix(minus.as_bytes()));
    digits.map_or(body.into(), |digits| [b"-", digits].concat())
}

/// With points for commas.
pub fn pointed(body: &[u8]) -> Vec<u8> {
    let point = |&byte: &u8| if byte == b',' { b'.' } else { byte };
    body.iter().map(point).collect()
}

/// Digits, with a sign or without.
pub fn is_integer(text: &[u8]) -> bool {
    is_digits(unsigned(text))
}

fn is_digits(text: &[u8]) -> bool {
    !text.is_empty() && text.iter().all(u8::is_ascii_digit)
}

fn unsigned(text: &[u8]) -> &[u8] {
    match text {
        [b'+' | b'-', rest @ ..] => rest,
        _ => text,
    }
}

/// Whether its digits are in groups, or may be: `1,000` is a thousand to one and a one to another.
/// `9,5` and `0,125` are the same to all.
pub fn is_grouped(body: &[u8]) -> bool {
    let body = numeral(body);
    let is_mark = |byte: &u8| b",.'_ ".contains(byte);
    let is_numeric = |byte: &u8| is_mark(byte) || b"+-".contains(byte) || byte.is_ascii_digit();
    let mantissa = match body.iter().position(|byte| b"eE".contains(byte)) {
        Some(at) if is_integer(&body[at + 1..]) => &body[..at],
        _ => &body[..],
    };
    let begins = matches!(unsigned(mantissa), [b'0'..=b'9' | b',', ..]);
    if !begins || !mantissa.iter().all(is_numeric) || !mantissa.iter().any(u8::is_ascii_digit) {
        return false;
    }
    let Some(mark) = mantissa.iter().position(is_mark) else {
        return false;
    };
    let (before, behind) = (unsigned(&mantissa[..mark]), &mantissa[mark + 1..]);
    match mantissa[mark] {
        b'.' => behind.iter().any(is_mark),
        b',' => !is_digits(before) || !is_digits(behind) || is_thousands(before, behind),
        _ => true,
    }
}

/// The same of an integer, where a point is as doubtful as a comma.
pub fn is_grouped_integer(body: &[u8]) -> bool {
    let body = numeral(body);
    let mut parts = unsigned(&body).splitn(2, |byte| *byte == b'.');
    let thousands = match (parts.next(), parts.next()) {
        (Some(before), Some(behind)) => is_thousands(before, behind),
        _ => false,
    };
    thousands || is_grouped(&body)
}

fn is_thousands(before: &[u8], behind: &[u8]) -> bool {
    let digits = is_digits(before) && is_digits(behind);
    digits && behind.len() == 3 && before.len() <= 3 && before.iter().any(|digit| *digit != b'0')
}
