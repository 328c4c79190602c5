//! Comparing, counting, generating and spoiling.

use second::compare::{compare, cover, lines_of, operation_of};
use second::generate::{requests, KINDS};
use second::protocol::answer;
use second::spoil;

#[test]
fn lines_of_a_file() {
    assert_eq!(lines_of(b""), Vec::<&[u8]>::new());
    assert_eq!(lines_of(b"\n"), [b""]);
    assert_eq!(lines_of(b"a\n\nb"), [b"a".as_slice(), b"", b"b"]);
    assert_eq!(lines_of(b"a\nb\n"), [b"a", b"b"]);
}

#[test]
fn operations_of_requests() {
    assert_eq!(operation_of(b"read -"), "read");
    assert_eq!(operation_of(b"reads -"), "other");
    assert_eq!(operation_of(b"read \xff"), "other");
    assert_eq!(operation_of(b""), "other");
}

#[test]
fn comparisons() {
    let alike = compare(b"read -\n\nread 0", b"1\n2\n3\n", b"1\n2\n3");
    assert_eq!(alike, ("read: 2 requests, all alike\nother: 1 requests, all alike\n".to_string(), true));
    let (text, same) = compare(b"read -\n", b"1\n", b"2\n");
    assert!(!same && text.ends_with("read: 1 requests, 1 differ\n") && text.contains("request read -"));
    assert!(!compare(b"read -\n", b"1\n1\n", b"1\n1\n").1);
    assert!(!compare(b"read -\nread -\n", b"1\n", b"1\n").1);
}

#[test]
fn counts_of_answers() {
    let text = cover(b"read -\nread 0\nread 1\n", b"refused b 0\nno request\nrefused b 0\n");
    assert_eq!(text, "read: no request: 1, refused 11: 2\n");
    let text = cover(b"table 2e\ntable 2f\n", b"refused 2 1 2\nrefused 2 1 1\n");
    assert_eq!(text, "table: refused 2: 2\n");
}

#[test]
fn the_same_seed_gives_the_same_requests() {
    let some: Vec<Vec<u8>> = requests(3, 300, &[]).collect();
    assert_eq!(some, requests(3, 300, &[]).collect::<Vec<_>>());
    assert_ne!(some, requests(4, 300, &[]).collect::<Vec<_>>());
    assert!(some.iter().all(|line| !line.contains(&b'\n')));
}

#[test]
fn a_table_cut_short_and_changed() {
    let spoiled = |text: &[u8], bytes: &[u8]| -> Vec<String> {
        spoil::requests(text, bytes).map(|line| String::from_utf8_lossy(&line).into_owned()).collect()
    };
    let beginnings = ["table -", "table 2e", "table 2e65"];
    assert_eq!(spoiled(b".e", b""), beginnings);
    let changed = ["table 0065", "table 6565", "table 2e00", "table 2e2e"];
    assert_eq!(spoiled(b".e", b"\0.e"), [beginnings.as_slice(), &changed].concat());
    assert_eq!(spoiled(b"", b"\0"), ["table -"]);
}

#[test]
fn every_kind_of_request_is_answered() {
    for kind in KINDS {
        let names = [kind];
        let all = requests(11, 400, &names).map(|line| answer(&line));
        let known = |text: &String| ["ok", "refused ", "no request"].iter().any(|start| text.starts_with(start));
        assert!(all.into_iter().all(|text| known(&text) && !text.contains("  ") && !text.ends_with(' ')));
    }
}
