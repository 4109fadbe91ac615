//! The digits of a length, a count or the number of a reference, as a plan spells it.

/// Those in front, behind a plus if there is one, and what follows them.
pub fn split(text: &[u8]) -> (&[u8], &[u8]) {
    let text = text.strip_prefix(b"+").unwrap_or(text);
    let count = text.iter().take_while(|byte| byte.is_ascii_digit()).count();
    text.split_at(count)
}

pub fn stand_in_front(text: &[u8]) -> bool {
    !split(text).0.is_empty()
}
