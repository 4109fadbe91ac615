//! Paths, on the tree. From "Paths" of docs/GUIDE.md: not how a component is taken apart, but
//! whether it spells a key.

use super::value::{Identity, Value};

/// The node of the value that a path leads to.
pub fn find(root: &Value, source: &[u8], path: &[u8]) -> Option<usize> {
    let components = path.strip_prefix(b"/")?;
    if components.is_empty() {
        return root.node;
    }
    let mut value = root;
    for component in components.split(|&byte| byte == b'/') {
        let mut pairs = value.pairs().iter();
        let pair = pairs.find(|pair| spells(component, pair.key.identity(source)))?;
        value = &pair.value;
    }
    value.node
}

/// "A component that is an integer of 64 bits in shortest form is an integer key [...] Everything
/// else is a string key [...] In double quotes it is always a string key".
fn spells(component: &[u8], key: Identity) -> bool {
    match key {
        Identity::Integer(value) => component == value.to_string().as_bytes(),
        Identity::Text(text) => {
            !is_integer(component) && text_of(component).as_deref() == Some(text)
        }
    }
}

/// "an integer of 64 bits in shortest form"
pub fn is_integer(text: &[u8]) -> bool {
    let (digits, largest) = match text.strip_prefix(b"-") {
        Some(digits) => (digits, "9223372036854775808"),
        None => (text, "9223372036854775807"),
    };
    let shortest = match digits {
        [] => false,
        [b'0'] => text == b"0",
        [first, ..] => *first != b'0' && digits.iter().all(u8::is_ascii_digit),
    };
    // Of as many digits, the larger number is the later text.
    shortest && (digits.len(), digits) <= (largest.len(), largest.as_bytes())
}

/// "`%HH`, two hexadecimal digits, is any byte". The quote and the percent sign have no other
/// spelling, and the empty text is in quotes.
fn text_of(component: &[u8]) -> Option<Vec<u8>> {
    let inside = match component {
        [] => return None,
        [b'"', inside @ .., b'"'] => inside,
        plain => plain,
    };
    if inside.contains(&b'"') {
        return None;
    }
    let mut stretches = inside.split(|&byte| byte == b'%');
    let mut text = stretches.next()?.to_vec();
    for stretch in stretches {
        let (digits, plain) = stretch.split_at_checked(2)?;
        let digits = str::from_utf8(digits).ok()?;
        let unsigned = !digits.starts_with('+');
        text.push(u8::from_str_radix(digits, 16).ok().filter(|_| unsigned)?);
        text.extend(plain);
    }
    Some(text)
}
