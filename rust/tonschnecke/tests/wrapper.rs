//! The wrapper's own part: numbers turned into types, and room that suffices.

use tonschnecke::lent::table_words;
use tonschnecke::{Kind, Plan, Reason, ReferenceTag, SOURCE_LIMIT};

const DAY: &[u8] = br#"O:3:"Day":6:{s:1:"i";i:-7;s:1:"d";d:.5;s:1:"b";b:1;s:1:"a";a:1:{i:0;N;}s:1:"r";r:1;s:1:"R";R:5;}"#;

const fn reference(tag: ReferenceTag, ordinal: usize, node: usize) -> Kind<'static> {
    Kind::Reference { tag, ordinal, node }
}

/// The day's values: the node and the path of each, its kind, the ordinal that it took.
const VALUES: [(usize, &str, Kind, Option<usize>); 8] = [
    (
        0,
        "/",
        Kind::Object {
            class_name: b"Day",
            count: 6,
        },
        Some(1),
    ),
    (2, "/i", Kind::Integer(-7), Some(2)),
    (4, "/d", Kind::Float(b".5"), Some(3)),
    (6, "/b", Kind::Bool(true), Some(4)),
    (8, "/a", Kind::Array { count: 1 }, Some(5)),
    (10, "/a/0", Kind::Null, Some(6)),
    (12, "/r", reference(ReferenceTag::Small, 1, 0), Some(7)),
    (14, "/R", reference(ReferenceTag::Capital, 5, 8), None),
];

#[test]
fn every_kind_is_shown() {
    let plan = Plan::read(DAY).unwrap();
    assert_eq!((plan.rows().len(), plan.ordinals()), (15, 7));
    let shown = plan.values().map(|value| {
        let path = value.path().to_string();
        (value.node(), path, value.kind(), value.ordinal())
    });
    let expected = VALUES.map(|(node, path, kind, ordinal)| (node, path.to_owned(), kind, ordinal));
    assert_eq!(shown.collect::<Vec<_>>(), expected);
}

#[test]
fn nodes_are_keys_or_values() {
    let plan = Plan::read(DAY).unwrap();
    for node in 0..16 {
        let value = VALUES.iter().any(|known| known.0 == node);
        assert_eq!(plan.value(node).is_some(), value, "{node}");
        assert_eq!(plan.key(node).is_some(), !value && node < 15, "{node}");
    }
    assert_eq!(plan.key(1), Some("i".into()));
    assert_eq!(plan.key(9), Some(0.into()));
}

#[test]
fn values_know_where_they_stand() {
    let plan = Plan::read(DAY).unwrap();
    let null = plan.path("/a/0").unwrap();
    let array = null.container().unwrap();
    assert_eq!(
        (null.key(), null.place(), null.depth()),
        (Some(0.into()), Some(0), 3)
    );
    assert_eq!(
        (array.key(), array.place(), array.depth()),
        (Some("a".into()), Some(3), 2)
    );
    assert_eq!(array.container(), Some(plan.root()));
    let root = plan.root();
    assert_eq!((root.key(), root.place(), root.depth()), (None, None, 1));
    assert_eq!(root.container(), None);
    assert_eq!(plan.path("/R").unwrap().target(), Some(array));
    assert_eq!(array.target(), None);
    assert_eq!(array.resolved(), array);
    // Of an equal plan it is another value.
    let again = plan.clone();
    assert_ne!(again.root(), root);
    assert_ne!(root, array);
    let mut children = root.children();
    assert_eq!(
        (children.len(), children.next().is_some(), children.len()),
        (6, true, 5)
    );
    assert_eq!((children.by_ref().count(), children.next()), (5, None));
}

#[test]
fn an_edit_answers_a_new_plan() {
    let old = Plan::read(&b"a:2:{i:1;d:9.5;i:3;R:2;}"[..]).unwrap();
    let new = old.root().insert(0, b"i:+0;", b"d:8;").unwrap();
    assert_eq!(old.bytes(), b"a:2:{i:1;d:9.5;i:3;R:2;}");
    assert_eq!(new.bytes(), b"a:3:{i:+0;d:8;i:1;d:9.5;i:3;R:3;}");
    // What the edit left in its table is what reading afresh gives.
    assert_eq!(new, Plan::read(new.bytes()).unwrap());
    let canonical = new.canonical();
    assert_eq!(canonical.bytes(), b"a:3:{i:0;d:8;i:1;d:9.5;i:3;R:3;}");
    assert_eq!(canonical, Plan::read(canonical.bytes()).unwrap());
    let refusal = new.root().insert(4, b"i:9;", b"N;").unwrap_err();
    assert_eq!((refusal.reason, refusal.at), (Reason::PlaceAboveCount, 0));
}

#[test]
fn paths_that_lead_nowhere_say_from_where_on() {
    let plan = Plan::read(DAY).unwrap();
    let cases = [
        ("/x", "/ has no key x"),
        ("/a/1/2", "/a has no key 1"),
        ("/a/\"0\"", "/a has no key \"0\", but the integer key 0"),
        ("/a/0/2", "/a/0 has no key 2: it is null"),
        ("/d/x", "/d has no key x: it is .5"),
        (
            "/R/0",
            "/R has no key 0: it is R to /a, array of 1, and references are not followed",
        ),
        ("a", "a path begins with /"),
    ];
    for (path, error) in cases {
        assert_eq!(plan.path(path).unwrap_err().to_string(), error);
    }
}

#[test]
fn a_key_written_alike_is_told() {
    let plan = Plan::read("a:2:{s:1:\"2\";N;i:3;N;}").unwrap();
    let error = plan.path("/2").unwrap_err();
    assert_eq!(
        error.to_string(),
        "/ has no key 2, but the string key \"2\""
    );
    let source = std::error::Error::source(&error).expect("why");
    assert_eq!(source.to_string(), error.to_string());
    assert_eq!(plan.path("/4").unwrap_err().to_string(), "/ has no key 4");
}

#[test]
fn depth_is_counted_as_the_limit_is() {
    let source = "a:1:{i:0;".repeat(63) + "a:0:{}" + &"}".repeat(63);
    let plan = Plan::read(source).unwrap();
    let depths = plan.values().map(|value| value.depth());
    assert_eq!(depths.collect::<Vec<_>>(), Vec::from_iter(1..=64));
    let deepest = plan.values().next_back().unwrap();
    let refusal = deepest.insert(0, "i:0;", "N;").unwrap_err();
    assert_eq!(refusal.reason, Reason::TooDeep);
}

#[test]
fn what_is_shown_for_programmers_is_readable() {
    let plan = Plan::read(DAY).unwrap();
    let shown = plan.path("/a/june").map(|value| value.kind());
    assert_eq!(
        format!("{shown:?}"),
        "Err(Nowhere(Nowhere { path: Path(/a), key: Key(june), near: None, is: None }))"
    );
    let kinds: Vec<String> = plan
        .values()
        .map(|value| format!("{:?}", value.kind()))
        .collect();
    assert_eq!(
        kinds.join(" "),
        "Object { class_name: \"Day\", count: 6 } Integer(-7) Float(.5) Bool(true) Array { count: 1 } Null \
         Reference { Small, ordinal: 1, node: 0 } Reference { Capital, ordinal: 5, node: 8 }"
    );
    assert_eq!(
        format!("{:?}", plan.path("/R").unwrap()),
        "Value(/R: R to /a, array of 1)"
    );
}

#[test]
fn reasons_are_numbered_from_1_on() {
    for (code, reason) in (1..).zip(Reason::ALL) {
        assert_eq!(reason.code(), code);
        assert_eq!(Reason::from_code(code), Some(reason));
    }
    assert_eq!(Reason::from_code(Reason::ALL.len() as u64 + 1), None);
}

#[test]
fn a_refusal_says_number_position_and_sentence() {
    let refusal = Plan::read("a:1:{i:0;r:2;}").unwrap_err();
    let sentence = "the reference names a number that no earlier value carries";
    assert_eq!(refusal.to_string(), format!("refused 6 at 9: {sentence}"));
}

#[test]
fn short_sources_have_room() {
    let bytes = b"NbidsaOrR0:;{}\"";
    let pairs = bytes
        .iter()
        .flat_map(|&first| bytes.iter().map(move |&second| [first, second]));
    for [first, second] in pairs {
        for source in [
            &[first][..],
            &[first, second],
            &[b'a', b':', b'1', b':', b'{', first, second],
        ] {
            if let Err(refusal) = Plan::read(source) {
                assert_ne!(refusal.reason, Reason::TableFull, "{source:?}");
            }
        }
    }
    assert_eq!(Plan::read("").unwrap_err().reason, Reason::Malformed);
}

#[test]
fn the_longest_source_has_room_for_a_pair_more() {
    let mut pairs = String::new();
    let mut count = 0;
    while pairs.len() < SOURCE_LIMIT - 50 {
        pairs += &format!("i:{count};N;");
        count += 1;
    }
    let plan = Plan::read(format!("a:{count}:{{{pairs}}}")).unwrap();
    let longer = plan.root().insert(count, b"s:0:\"\";", b"N;").unwrap();
    assert_eq!(longer.rows().len(), 2 * count + 3);
    assert_eq!(table_words(SOURCE_LIMIT + 1), table_words(SOURCE_LIMIT));
    assert_eq!(table_words(usize::MAX), table_words(SOURCE_LIMIT));
}
