//! What is known by its first bytes. No plan begins so.

const BOM: &str = "a byte order mark (BOM), which some editors write, stands before it; \
                   without it: tail -c +4 FILE > NEW";
const UTF_16: &str = "this is UTF-16; convert it first: iconv -f UTF-16 -t UTF-8 FILE > NEW";
const UTF_32: &str = "this is UTF-32; convert it first: iconv -f UTF-32 -t UTF-8 FILE > NEW";
const BZIP2: &str = "this is bzip2; unpack it first: bzip2 -dc FILE > NEW";
const ZLIB: &str = "this is zlib; unpack it first, in PHP with gzuncompress";
const PRINTED: &str = "this is what PHP prints for people; let it write the plan with serialize";

/// UTF-32's marks begin as UTF-16's, so they stand first.
const STARTS: [(&[u8], &str); 13] = [
    (
        b"\x1f\x8b",
        "this is gzip; unpack it first: gzip -dc FILE > NEW",
    ),
    (
        b"PK\x03\x04",
        "this is zip; unpack it first: unzip -p FILE > NEW",
    ),
    (
        b"\xfd7zXZ\0",
        "this is xz; unpack it first: xz -dc FILE > NEW",
    ),
    (
        b"\x28\xb5\x2f\xfd",
        "this is zstd; unpack it first: zstd -dc FILE > NEW",
    ),
    (b"\xef\xbb\xbf", BOM),
    (b"\xff\xfe\0\0", UTF_32),
    (b"\0\0\xfe\xff", UTF_32),
    (b"\xff\xfe", UTF_16),
    (b"\xfe\xff", UTF_16),
    (b"array (", PRINTED),
    (b"array(", PRINTED),
    (b"Array\n(", PRINTED),
    (b"(object) array(", PRINTED),
];

pub fn by_start(source: &[u8]) -> Option<&'static str> {
    let start = STARTS.iter().find(|(start, _)| source.starts_with(start));
    match source {
        _ if start.is_some() => start.map(|(_, what)| *what),
        [b'B', b'Z', b'h', b'1'..=b'9', rest @ ..] if rest.starts_with(b"1AY&SY") => Some(BZIP2),
        [b'x', 0x01 | 0x5e | 0x9c | 0xda, ..] if !is_text(source) => Some(ZLIB),
        _ => is_printed_object(source).then_some(PRINTED),
    }
}

/// `x^` begins zlib and formulas.
fn is_text(bytes: &[u8]) -> bool {
    bytes
        .iter()
        .all(|byte| byte.is_ascii_graphic() || byte.is_ascii_whitespace())
}

/// An object by PHP's print_r, var_export or var_dump.
fn is_printed_object(source: &[u8]) -> bool {
    let dumped = source.strip_prefix(b"object(");
    let text = dumped.unwrap_or(source);
    let in_name = |byte: &u8| byte.is_ascii_alphanumeric() || b"_\\".contains(byte) || *byte > 127;
    let length = text.iter().take_while(|byte| in_name(byte)).count();
    let rest = &text[length..];
    let goes_on = match dumped {
        Some(_) => matches!(rest, [b')', b'#', b'0'..=b'9', ..]),
        None => rest.starts_with(b" Object\n(") || rest.starts_with(b"::__set_state(array("),
    };
    length > 0 && goes_on
}
