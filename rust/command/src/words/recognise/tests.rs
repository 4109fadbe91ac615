use super::*;

const BASE64: &str = "this is base64; decode it first: base64 -di FILE > NEW";
const BASE64_PHP: &str = "this is base64 for URLs or without padding; decode it first, \
                          in PHP: base64_decode(strtr($text, '-_', '+/'))";
const GZIP: &str = "this is gzip; unpack it first: gzip -dc FILE > NEW";
const ZLIB: &str = "this is zlib; unpack it first, in PHP with gzuncompress";
const BZIP2: &str = "this is bzip2; unpack it first: bzip2 -dc FILE > NEW";
const BOM: &str = "a byte order mark (BOM), which some editors write, stands before it; \
                   without it: tail -c +4 FILE > NEW";
const UTF_16: &str = "this is UTF-16; convert it first: iconv -f UTF-16 -t UTF-8 FILE > NEW";
const UTF_32: &str = "this is UTF-32; convert it first: iconv -f UTF-32 -t UTF-8 FILE > NEW";
const PRINTED: &str = "this is what PHP prints for people; let it write the plan with serialize";
const JSON: &str = "this is JSON; in PHP, serialize(json_decode(..., true)) makes a plan of it; \
                    classes and sharing are not in JSON";
const JSON_STRING: &str = "this is a JSON string; in PHP, json_decode gives the plan";
const QUOTE: &str = "a quote stands before it; take it away";
const QUOTES: &str = "quotes stand around it; take them away";
const BLANKS: &str = "blanks or newlines stand before it; take them away";
const HTML: &str = "its quotes were changed for HTML, to &quot;; take the plan as it was before";
const BACKSLASH: &str = "backslashes were put before its quotes; take the plan as it was before";
const LETTERS_COUNTED: &str =
    "its length counts letters, not bytes; if it was converted to UTF-8, take the plan as bytes";

/// What the library's refusal of a source is taken for; nothing of one that it accepts.
fn recognised(source: &[u8]) -> Option<String> {
    let refusal = Plan::read(source).err()?;
    recognise(source, refusal)
}

const NAMED: &[(&[u8], &str)] = &[
    (b"E:11:\"Suit:Hearts\";", LETTERS[0].1),
    (b"a:1:{i:0;E:11:\"Suit:Hearts\";}", LETTERS[0].1),
    (b"C:1:\"X\":0:{}", LETTERS[1].1),
    (b"S:1:\"\\41\";", LETTERS[2].1),
    (b"a:1:{S:1:\"\\41\";N;}", LETTERS[2].1),
    (b"\xef\xbb\xbfN;", BOM),
    (b"\xff\xfeN\0;\0", UTF_16),
    (b"\xfe\xff\0N\0;", UTF_16),
    (b"\xff\xfe\0\0N\0\0\0", UTF_32),
    (b"\0\0\xfe\xff\0\0\0N", UTF_32),
    (b"\x1f\x8b\x08\0", GZIP),
    (
        b"PK\x03\x04",
        "this is zip; unpack it first: unzip -p FILE > NEW",
    ),
    (b"BZh11AY&SY", BZIP2),
    (b"BZh91AY&SY", BZIP2),
    (b"x\x01\x03", ZLIB),
    (b"x^\x03", ZLIB),
    (b"x\x9c\xab", ZLIB),
    (b"x\xda\xab", ZLIB),
    (b"array (\n  0 => 9.5,\n)", PRINTED),
    (b"Array\n(\n    [0] => 9.5\n)\n", PRINTED),
    (b"AirPlan Object\n(\n    [year] => 2024\n)\n", PRINTED),
    (b"Air\\Plan Object\n(\n)\n", PRINTED),
    (b"\\AirPlan::__set_state(array(\n))", PRINTED),
    (b"(object) array(\n)", PRINTED),
    (b"object(AirPlan)#1 (0) {\n}\n", PRINTED),
    (b"{\"year\": 2024}", JSON),
    (b"{\n  \"year\": 2024\n}\n", JSON),
    (b"[9.5, 10.25]", JSON),
    (b"[ -0.5e3 ]", JSON),
    (b"[\"a]\\\"\"]", JSON),
    (b"[[[1], 2], 3]", JSON),
    (b"[{\"year\": 2024}]", JSON),
    (b"\"s:3:\\\"may\\\";\"", JSON_STRING),
    (b"\"a:1:{s:1:\\\"a\\\";N;}\"\n", JSON_STRING),
    (b"Tjs=", BASE64),
    (b"Tjs=\n", BASE64),
    (b"YToxOntp\nOjA7Tjt9\n", BASE64),
    // Of `a:1:{i:0;`, cut there.
    (b"YToxOntpOjA7", BASE64),
    (b"Tj\r\ns=\r\n", BASE64),
    (b"Tjs", BASE64_PHP),
    (b"czoxOiI_Ijs=", BASE64_PHP),
    (b"year|i:2024;leap|b:1;", SESSION),
    (b"air|d:9.5;", SESSION),
    (b"N|a:1:{i:0;N;}", SESSION),
    (b"M\xc3\xa4rz-29|N;", SESSION),
    (
        b"N;\n",
        "this is a newline at the end; without it: head -c 2 FILE > NEW",
    ),
    (
        b"i:5;\r\n",
        "this is a newline at the end; without it: head -c 4 FILE > NEW",
    ),
    (
        b"b:1;\n\n",
        "this is a newline at the end; without it: head -c 4 FILE > NEW",
    ),
    (b"", "it is empty"),
    (b"'a:0:{}'", QUOTES),
    (b"\"N;\"\n", QUOTES),
    (b"\"N;", QUOTE),
    (b"'a:1:{i:0;N;}\"", QUOTE),
    (b"\nN;", BLANKS),
    (b" \r\n a:1:{i:0;", BLANKS),
    (b"s:3:&quot;may&quot;;", HTML),
    (b"s:+3:&quot;may&quot;;", HTML),
    (b"a:1:{i:0;s:3:&quot;may&quot;;}", HTML),
    (b"O:3:&quot;Day&quot;:0:{}", HTML),
    (b"s:3:\\\"may\\\";", BACKSLASH),
    (b"a:1:{i:0;s:4:\"M\xc3\xa4rz\";}", LETTERS_COUNTED),
];

#[test]
fn by_its_bytes() {
    for (source, what) in NAMED {
        assert_eq!(
            recognised(source).as_deref(),
            Some(*what),
            "{}",
            source.escape_ascii()
        );
    }
}

/// Refused, and nothing is known of them.
const UNNAMED: &[&[u8]] = &[
    b"N;;",
    b"N;N;\n",
    b"N; \n",
    b"x",
    b"E",
    b"Easter",
    b"E:Easter",
    b"abcd",
    b"month",
    b"Yjox",
    b"a",
    b"|i:5;",
    b"year|2024",
    b"a|1:{i:0;N;}",
    b"day one|i:5;",
    b"{i:0;N;}",
    b"[north]",
    b"[2024-02-29] air=9.5 [ok]",
    b"[5] 9.5 [6]",
    b"[05, 6]",
    b"[5 6]",
    b"[+5]",
    b"[.5]",
    b"[\"a]",
    b"{\"broken}",
    b"{\"broken\"}",
    b"\"may\"",
    b"\"s:3:\\\"may\\\";",
    b"x^2 + 1",
    b"BZh01AY&SY",
    b"Object\n(",
    b"object()#1",
    b"object(AirPlan)",
    b"'may'",
    b"\"",
    b" ",
    b"\n",
    b" may",
    b"i:;",
    b"s:4:\"may\";",
    b"s:2:\"may\";",
    b"O:3:\"Day\";",
    b"s:4:\"M\xe4rz",
    b"s:4:\"M\xc3\xa4r\";",
    b"a:2:{i:0;N;}",
    b"a:1:{i:0;R:2;}",
    b"i:9223372036854775808;",
];

#[test]
fn what_is_not_known_is_not_named() {
    for source in UNNAMED {
        assert_eq!(recognised(source), None, "{}", source.escape_ascii());
    }
}

#[test]
fn too_long_as_well() {
    let long = |start: &[u8], byte: u8| {
        let mut source = start.to_vec();
        source.resize(SOURCE_LIMIT + 1, byte);
        recognised(&source)
    };
    assert_eq!(long(b"\x1f\x8b", 7).as_deref(), Some(GZIP));
    // Of `a:1:{i:0;s:1` and so on.
    assert_eq!(long(b"YToxOntpOjA7czox", b'A').as_deref(), Some(BASE64));
    assert_eq!(long(b"day|a:1:{i:0;", b'x').as_deref(), Some(SESSION));
    assert_eq!(long(b"a:1:{i:0;", b'x'), None);
    assert_eq!(long(b"", b'A'), None);
    assert_eq!(long(b"", b'['), None);
    assert_eq!(long(b"", b'\n'), None);
}

#[test]
fn a_newline_behind_the_longest_plan() {
    let text = "x".repeat(SOURCE_LIMIT - "s:65525:\"\";".len());
    let plan = format!("s:{}:\"{text}\";", text.len());
    assert_eq!(plan.len(), SOURCE_LIMIT);
    let said = "its first 65,536 bytes are a plan, and a newline follows; \
                without it: head -c 65536 FILE > NEW";
    for newline in ["\n", "\r\n"] {
        let source = plan.clone() + newline;
        assert_eq!(recognised(source.as_bytes()).as_deref(), Some(said));
    }
    assert_eq!(recognised((plan + "x").as_bytes()), None);
    let short = "N;".to_owned() + &"\n".repeat(SOURCE_LIMIT);
    assert_eq!(recognised(short.as_bytes()), None);
}

#[test]
fn nothing_is_said_of_what_is_no_fault_of_the_plan_s_form() {
    let refusal = Refusal {
        reason: Reason::OutputFull,
        at: 0,
    };
    assert_eq!(recognise(b"\x1f\x8b", refusal), None);
}
