//! The texts of keys and of plain values, to be put into a plan. They are only written here: the
//! library judges them.

/// `N;`
pub fn null() -> Vec<u8> {
    b"N;".to_vec()
}

/// `b:1;` or `b:0;`
pub fn boolean(truth: bool) -> Vec<u8> {
    format!("b:{};", u8::from(truth)).into()
}

/// An integer, also as a key.
///
/// ```
/// assert_eq!(tonschnecke::serialized::integer(-7), b"i:-7;");
/// ```
pub fn integer(integer: i64) -> Vec<u8> {
    format!("i:{integer};").into()
}

/// A float, by its text: a float means its text. The library refuses one that is none.
///
/// ```
/// assert_eq!(tonschnecke::serialized::float("9.50"), b"d:9.50;");
/// ```
pub fn float(text: impl AsRef<[u8]>) -> Vec<u8> {
    [b"d:", text.as_ref(), b";"].concat()
}

/// A string, also as a key. Its length counts bytes.
///
/// ```
/// assert_eq!(tonschnecke::serialized::string("März"), "s:5:\"März\";".as_bytes());
/// ```
pub fn string(bytes: impl AsRef<[u8]>) -> Vec<u8> {
    let bytes = bytes.as_ref();
    let head = format!("s:{}:\"", bytes.len());
    [head.as_bytes(), bytes, b"\";"].concat()
}
