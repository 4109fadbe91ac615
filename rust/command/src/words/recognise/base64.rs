//! Base64, as far as it must be known to tell what stands in it.

use tonschnecke::SOURCE_LIMIT;

/// With -i, since the lines may end with CR.
const PADDED: &str = "this is base64; decode it first: base64 -di FILE > NEW";
/// Neither is taken by the command base64.
const OTHER: &str = "this is base64 for URLs or without padding; decode it first, \
                     in PHP: base64_decode(strtr($text, '-_', '+/'))";

/// How to decode it, if it is base64 of something wanted.
pub fn advice(text: &[u8], wanted: impl Fn(&[u8]) -> bool) -> Option<&'static str> {
    let bytes = decoded(text)?;
    // Of a longer one the end was not read.
    let padded = text.len() > SOURCE_LIMIT || without_lines(text).len().is_multiple_of(4);
    let plain = padded && !text.iter().any(|byte| b"-_".contains(byte));
    wanted(&bytes).then_some(if plain { PADDED } else { OTHER })
}

fn without_lines(text: &[u8]) -> Vec<u8> {
    let text = text.iter().copied().filter(|byte| !b"\r\n".contains(byte));
    text.collect()
}

/// The bytes that it means; none where anything but digits, padding and newlines stands there.
fn decoded(text: &[u8]) -> Option<Vec<u8>> {
    let text = without_lines(text);
    let padding = text.iter().rev().take_while(|&&byte| byte == b'=').count();
    let (digits, _) = text.split_at(text.len() - padding);
    let digits: Vec<u8> = digits.iter().copied().map(digit).collect::<Option<_>>()?;
    (padding <= 2).then(|| digits.chunks(4).flat_map(bytes).collect())
}

fn digit(byte: u8) -> Option<u8> {
    Some(match byte {
        b'A'..=b'Z' => byte - b'A',
        b'a'..=b'z' => byte - b'a' + 26,
        b'0'..=b'9' => byte - b'0' + 52,
        b'+' | b'-' => 62,
        b'/' | b'_' => 63,
        _ => return None,
    })
}

/// Four digits are three bytes, and fewer at the end one byte less than they are.
fn bytes(digits: &[u8]) -> Vec<u8> {
    let bits = (0..4).fold(0, |bits, place| {
        bits << 6 | u32::from(digits.get(place).copied().unwrap_or(0))
    });
    bits.to_be_bytes()[1..digits.len()].to_vec()
}

#[cfg(test)]
mod tests {
    use super::*;

    #[test]
    fn is_decoded() {
        let cases: [(&[u8], Option<&[u8]>); 9] = [
            (b"", Some(b"")),
            (b"Tjs=", Some(b"N;")),
            (b"Tjs", Some(b"N;")),
            (b"Tj\r\ns=\n", Some(b"N;")),
            (b"aTo1Ow==", Some(b"i:5;")),
            (b"+/+/", Some(b"\xfb\xff\xbf")),
            (b"-_-_", Some(b"\xfb\xff\xbf")),
            (b"Tj s", None),
            (b"T===", None),
        ];
        for (text, bytes) in cases {
            assert_eq!(decoded(text).as_deref(), bytes, "{}", text.escape_ascii());
        }
    }

    #[test]
    fn only_what_is_wanted_is_told() {
        let told = |text: &[u8]| advice(text, |bytes| bytes.starts_with(b"\xfb\xff"));
        for padded in ["+/8=", "+/+/", "+/\r\n8=\r\n"] {
            assert_eq!(told(padded.as_bytes()), Some(PADDED), "{padded}");
        }
        for other in ["-_8=", "-_-_", "-_8", "+/8", "+/8=="] {
            assert_eq!(told(other.as_bytes()), Some(OTHER), "{other}");
        }
        assert_eq!(told(b"abcd"), None);
    }
}
