//! Quotes as they are typed, printed, escaped for a shell and for HTML.

/// What opens and what closes. The longer ones first: they end with others.
const PAIRS: [(&str, &str); 18] = [
    ("\\\"", "\\\""),
    ("&quot;", "&quot;"),
    ("\"", "\""),
    ("'", "'"),
    ("`", "`"),
    ("`", "'"),
    ("`", "\u{b4}"),
    ("\u{b4}", "\u{b4}"),
    ("\u{201c}", "\u{201d}"),
    ("\u{201d}", "\u{201d}"),
    ("\u{201e}", "\u{201c}"),
    ("\u{201e}", "\u{201d}"),
    ("\u{2018}", "\u{2019}"),
    ("\u{2019}", "\u{2019}"),
    ("\u{201a}", "\u{2018}"),
    ("\u{201a}", "\u{2019}"),
    ("\u{ab}", "\u{bb}"),
    ("\u{bb}", "\u{ab}"),
];

/// The quote at the beginning.
pub fn opening(text: &[u8]) -> Option<&'static str> {
    let mut quotes = PAIRS.iter().map(|(open, _)| *open);
    quotes.find(|quote| text.starts_with(quote.as_bytes()))
}

/// The quote at the end.
pub fn closing(text: &[u8]) -> Option<&'static str> {
    let mut quotes = PAIRS.iter().map(|(_, close)| *close);
    quotes.find(|quote| text.ends_with(quote.as_bytes()))
}

/// What stands between the two quotes of a pair.
pub fn unquoted(text: &[u8]) -> Option<&[u8]> {
    let (open, close) = (opening(text)?, closing(text)?);
    let inside = text.get(open.len()..text.len() - close.len())?;
    PAIRS.contains(&(open, close)).then_some(inside)
}

/// The same, if no quote inside could be the one that closes.
pub fn plainly_unquoted(text: &[u8]) -> Option<&[u8]> {
    let inside = unquoted(text)?;
    let close = closing(text)?.as_bytes();
    let ends_within = inside.windows(close.len()).any(|part| part == close);
    (!ends_within).then_some(inside)
}
