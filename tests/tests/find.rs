//! Where paths lead: the library against paths written by hand, the model, and what the plan itself
//! says; and tables that are not the plan's.

use tonschnecke::{lent, Plan};
use tonschnecke_tests::call::{Place, Texts};
use tonschnecke_tests::generate;
use tonschnecke_tests::library;
use tonschnecke_tests::memory::{Input, Setting};
use tonschnecke_tests::model::{self, is_of, Row, Table, WORDS};
use tonschnecke_tests::random::Random;

/// Keys of every sort: what looks like an integer, what has to be escaped, nothing at all.
const PLAN: &[u8] = b"a:20:{i:0;N;s:1:\"0\";N;i:-7;N;s:2:\"-7\";N;s:2:\"02\";N;s:2:\"-0\";N;s:2:\"+5\";N;s:0:\"\";N;\
    s:1:\"/\";N;s:1:\"%\";N;s:1:\"\"\";N;s:1:\"\0\";N;s:1:\"\xff\";N;i:9223372036854775807;N;i:-9223372036854775808;N;\
    s:19:\"9223372036854775808\";N;s:20:\"-9223372036854775809\";N;s:1:\"a\";a:2:{i:2;R:1;s:1:\"b\";O:1:\"c\":1:{s:1:\"2\";d:5;}}\
    s:2:\"ab\";r:1;s:1:\"\x10\";N;}";

/// Nodes of the plan, and paths that lead to each.
const LEADS: [(usize, &str); 24] = [
    (0, "/"),
    (2, "/0"),
    (4, r#"/"0" /%30 /"%30""#),
    (6, "/-7"),
    (8, r#"/"-7" /%2d7 /-%37"#),
    (10, r#"/02 /"02""#),
    (12, r#"/-0 /"-0""#),
    (14, "/+5 /%2B5"),
    (16, r#"/"""#),
    (18, r#"/%2F /%2f /"%2F""#),
    (20, r#"/%25 /"%25""#),
    (22, r#"/%22 /"%22""#),
    (24, r#"/%00 /"%00""#),
    (26, "/%ff /%fF /%Ff /%FF"),
    (28, "/9223372036854775807"),
    (30, "/-9223372036854775808"),
    (32, r#"/9223372036854775808 /"9223372036854775808""#),
    (34, "/-9223372036854775809 /%2D9223372036854775809"),
    (36, r#"/a /"a" /%61"#),
    (38, "/a/2"),
    (40, "/a/b"),
    (42, r#"/"a"/"b"/"2" /a/%62/%32"#),
    (44, r#"/ab /"a%62""#),
    (46, "/%10"),
];

/// What leads nowhere in the plan.
const NOWHERE: &str = r#"/1 /7 /+0 /00 /--7 /- /A /b /abc /a%00 /a/1 /a/"2" /a/b/2 /a/b/c /a/2/0 /a/2/a /ab/0 /0/0
    /9223372036854775809 /-9223372036854775810 /18446744073709551609"#;

/// What is no path.
const NO_PATH: &str = r#"a 0 "" // //a /a/ /a//2 /0/ /""/ /"02 /02" /" /""" /"a"b /a"b" /"/" /a" /% /%2 /"%2" /%2/F /%g0
    /%0g /%+5 /%-1 /%% /0%"#;

/// Where both searches lead, that of C and that of the wrapper for Rust, which must be the same.
struct Searches {
    source: Vec<u8>,
    table: Vec<u64>,
    plan: Plan,
}

impl Searches {
    fn of(source: &[u8]) -> Searches {
        Searches {
            source: source.to_vec(),
            table: table_of(source),
            plan: Plan::read(source).expect("accepted"),
        }
    }

    fn find(&self, path: &[u8]) -> Option<usize> {
        let found = library::find(&self.source, &self.table, path);
        let in_rust = self.plan.path(path).ok().map(|value| value.node());
        assert_eq!(in_rust, found, "{}", path.escape_ascii());
        found
    }

    /// The path that the wrapper gives for a node.
    fn path_to(&self, node: usize) -> Vec<u8> {
        let value = self.plan.value(node).expect("a value");
        value.path().to_string().into_bytes()
    }
}

fn table_of(source: &[u8]) -> Vec<u64> {
    let mut table = vec![0; lent::table_words(source.len())];
    assert_eq!(library::read(source, &mut table).code, 0);
    table
}

#[test]
fn paths_written_by_hand() {
    let searches = Searches::of(PLAN);
    let model = model::finder(PLAN).expect("accepted");
    let check = |path: &[u8], node| {
        let shown = path.escape_ascii();
        assert_eq!(model(path), node, "the model, {shown}");
        assert_eq!(searches.find(path), node, "{shown}");
    };
    for (node, paths) in LEADS {
        for path in paths.split_whitespace() {
            check(path.as_bytes(), Some(node));
        }
    }
    for path in NOWHERE.split_whitespace().chain(NO_PATH.split_whitespace()) {
        check(path.as_bytes(), None);
    }
    check(b"/\xff", Some(26));
    for path in [&b""[..], b"/ a", b"/a ", b"/% 5", b" /a"] {
        check(path, None);
    }
}

/// Calls `check` with a path to every value that the one at `node` holds, and to itself.
fn for_values(
    random: &mut Random,
    (table, source): (&Table, &[u8]),
    (node, path): (usize, &[u8]),
    check: &mut impl FnMut(&mut Random, usize, &[u8]),
) {
    check(random, node, if path.is_empty() { b"/" } else { path });
    if !is_of(&table.rows[node], b"aO") {
        return;
    }
    for key in table.keys_of(node) {
        let component = generate::component(random, table.key(key, source));
        let path = [path, b"/", &component].concat();
        for_values(random, (table, source), (key + 1, &path), check);
    }
}

#[test]
fn every_value_is_found_and_altered_paths_lead_where_the_model_says() {
    let mut random = Random::new(1);
    let (mut values, mut astray, mut elsewhere) = (0, 0, 0);
    for _ in 0..8_000 {
        let plan = generate::plan(&mut random);
        let (Ok(rows), Some(model)) = (model::read(&plan, usize::MAX), model::finder(&plan)) else {
            continue;
        };
        // A search takes time with the nodes, and there is one for each.
        if rows.rows.len() > 1_000 {
            continue;
        }
        let searches = Searches::of(&plan);
        let mut check = |random: &mut Random, node: usize, path: &[u8]| {
            let shown = || format!("{} in {}", path.escape_ascii(), plan.escape_ascii());
            assert_eq!(model(path), Some(node), "the model, {}", shown());
            assert_eq!(searches.find(path), Some(node), "{}", shown());
            let back = searches.path_to(node);
            assert_eq!(model(&back), Some(node), "{}", back.escape_ascii());
            values += 1;
            let other = generate::altered(random, path);
            let found = searches.find(&other);
            assert_eq!(
                found,
                model(&other),
                "{} for {}",
                other.escape_ascii(),
                shown()
            );
            astray += usize::from(found.is_none());
            elsewhere += usize::from(found.is_some_and(|found| found != node));
        };
        for_values(&mut random, (&rows, &plan), (0, b""), &mut check);
    }
    let reached = [values, astray, elsewhere];
    assert!(
        values > 30_000 && astray > 20_000 && elsewhere > 1_500,
        "{reached:?}"
    );
}

/// "by one that writes for the bytes written, which are then the source here"; behind the last node
/// the table keeps what it held.
#[test]
fn a_written_plan_is_searched_in_what_was_written() {
    let texts = Texts {
        source: &b"a:01:{s:01:\"k\";N;}"[..],
        key: b"s:3:\"new\";",
        value: b"N;",
    };
    let place = Place {
        array_node: 0,
        pair_index: 0,
    };
    let (mut table, mut out) = (vec![7; 10 * WORDS], vec![0; 100]);
    let length = library::insert(texts, place, &mut table, &mut out).length as usize;
    let find = |path| library::find(&out[..length], &table, path);
    assert_eq!(
        [find(b"/"), find(b"/new"), find(b"/k")],
        [Some(0), Some(2), Some(4)]
    );
    let length = library::canonicalize(texts.source, &mut table, &mut out).length as usize;
    let find = |path| library::find(&out[..length], &table, path);
    assert_eq!(
        [find(b"/"), find(b"/new"), find(b"/k")],
        [Some(0), None, Some(2)]
    );
}

#[test]
fn after_a_refusal_every_path_leads_nowhere() {
    for words in [0, 1, 5, 6, 7, 40] {
        let mut table = vec![7; words];
        assert_ne!(library::read(b"a:1:{i:0;N;", &mut table).code, 0);
        for path in [&b"/"[..], b"/0", b"/7", b"/\"\"", b"", b"//"] {
            assert_eq!(library::find(b"a:1:{i:0;N;", &table, path), None);
            assert_eq!(library::find(b"", &table, path), None);
        }
    }
}

/// An array of two pairs, with keys 5 and `bc` in the source `abc`.
const ROWS: [Row; 5] = [
    [97, 1, 0, 0, 2, 5],
    [105, 0, 5, 0, 0, 2],
    [78, 2, 0, 0, 0, 3],
    [115, 0, 1, 2, 0, 4],
    [78, 3, 0, 0, 0, 5],
];

/// Where both paths lead with one word of the table changed.
fn changed(row: usize, word: usize, to: u64) -> [Option<usize>; 2] {
    let mut rows = ROWS;
    rows[row][word] = to;
    let table = rows.as_flattened();
    [&b"/5"[..], b"/bc"].map(|path| library::find(b"abc", table, path))
}

/// What is behind the source, the table or the plan's last node is none of it, and no word leads
/// back.
#[test]
fn tables_that_lie_lead_nowhere_else() {
    let table = ROWS.as_flattened();
    let (both, first, none) = ([Some(2), Some(4)], [Some(2), None], [None, None]);
    assert_eq!(changed(0, 0, 79), both);
    assert_eq!(changed(0, 4, u64::MAX), both);
    assert_eq!(changed(0, 5, u64::MAX), both);
    for source_len in 0..3 {
        assert_eq!(library::find(&b"abc"[..source_len], table, b"/bc"), None);
    }
    for (words, node) in [(12, None), (17, None), (18, Some(2)), (30, Some(2))] {
        assert_eq!(library::find(b"abc", &table[..words], b"/5"), node);
    }
    for (end, found) in [(0, none), (1, none), (2, none), (3, first), (4, first)] {
        assert_eq!(changed(0, 5, end), found, "{end}");
    }
    assert_eq!([changed(0, 0, 115), changed(0, 0, 97 + 256)], [none, none]);
    assert_eq!([changed(0, 4, 0), changed(0, 4, 1)], [none, first]);
    // the offset of the key's text
    for offset in [0, 2, 3, 4, u64::MAX, u64::MAX - 1] {
        assert_eq!(changed(3, 2, offset), first, "{offset}");
    }
    // the next key's node; the last wraps to 3 when it is made an index of words
    for next in [0, 1, 2, 4, 5, 6, u64::MAX, (1 << 63) + 3] {
        assert_eq!(changed(2, 5, next), first, "{next}");
    }
}

/// A word that is likely to be taken for something.
fn likely_word(random: &mut Random, nodes: usize, source: &[u8]) -> u64 {
    let near_end = (source.len() + 1).saturating_sub(random.below(4)) as u64;
    let tag = u64::from(random.pick(b"NbidsaOrR"));
    let node = random.below(nodes + 2) as u64;
    let any = random.word();
    random.pick(&[node, node, node, tag, near_end, u64::MAX, 0, any, any << 32])
}

#[test]
fn any_words_of_a_table_are_taken() {
    let mut random = Random::new(2);
    let mut found = 0;
    for round in 0..20_000 {
        let plan = generate::valid(&mut random);
        let source = Input::new(&plan, random.pick(&Setting::ALL));
        let mut table = table_of(&generate::valid(&mut random));
        if random.one_in(4) {
            table = table_of(&plan);
        }
        table.truncate(random.between(0, table.len()));
        for _ in 0..random.pick(&[0, 1, 3, 20]).min(table.len()) {
            let place = random.below(table.len());
            table[place] = likely_word(&mut random, table.len() / WORDS, &plan);
        }
        let before = table.clone();
        let path = random.pick(&[
            &b"/"[..],
            b"/0",
            b"/\"\"",
            b"/1/0",
            b"/0/0/0",
            b"/a/%00",
            b"/-1",
        ]);
        let node = library::find(source.lent(), &table, path);
        assert!(
            node.is_none_or(|node| node < table.len() / WORDS),
            "{round}"
        );
        assert!(source.unchanged() && before == table, "{round}");
        found += usize::from(node.is_some());
    }
    assert!(found > 1_000, "{found}");
}
