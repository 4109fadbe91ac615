//! The form of float texts.

/// Whether the whole is a float text. "`5.` and `.5` are float texts; `.` and `+INF` are not."
pub fn is_float_text(text: &[u8]) -> bool {
    if matches!(text, b"INF" | b"-INF" | b"NAN") {
        return true;
    }
    let unsigned = without_sign(text);
    match unsigned.iter().position(|byte| matches!(byte, b'e' | b'E')) {
        Some(mark) => is_mantissa(&unsigned[..mark]) && is_exponent(&unsigned[mark + 1..]),
        None => is_mantissa(unsigned),
    }
}

/// "digits with at most one point, at least one digit in all"
fn is_mantissa(text: &[u8]) -> bool {
    let points = text.iter().filter(|&&byte| byte == b'.').count();
    let digits = text.iter().filter(|byte| byte.is_ascii_digit()).count();
    points <= 1 && digits >= 1 && points + digits == text.len()
}

/// "optional sign, one digit or more"
fn is_exponent(text: &[u8]) -> bool {
    let digits = without_sign(text);
    !digits.is_empty() && digits.iter().all(u8::is_ascii_digit)
}

fn without_sign(text: &[u8]) -> &[u8] {
    match text {
        [b'+' | b'-', rest @ ..] => rest,
        _ => text,
    }
}
