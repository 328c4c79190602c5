//! The column of a refused table: the examples byte for byte, each rule, and lines held against the paper's words.

use second::generate::{requests, Random};
use second::protocol::{answer, bytes_text};
use second::refusal::Refusal;
use second::report::report;
use second::table;
use std::collections::{BTreeMap, BTreeSet, HashSet};

const BLANKS: [char; 3] = [' ', '\t', '\r'];

/// Inputs and outputs, once both are known.
type Sizes = Option<(usize, usize)>;

fn refusal(text: impl AsRef<[u8]>) -> Option<Refusal> {
    table::read(text.as_ref()).err()
}

fn refused(number: u64, line: u64, column: u64) -> Option<Refusal> {
    Some(Refusal { number, line, column })
}

/// Lines after `.i 4` and `.o 2`, each refused by 2 at its column.
fn all_at(cases: &[(&str, u64)]) {
    for (line, column) in cases {
        assert_eq!(refusal(format!(".i 4\n.o 2\n{line}\n.e")), refused(2, 3, *column), "{line:?}");
    }
}

/// Lines that open a table, each refused by 2 at its column.
fn all_first_at(cases: &[(&str, u64)]) {
    for (line, column) in cases {
        assert_eq!(refusal(format!("{line}\n.e")), refused(2, 1, *column), "{line:?}");
    }
}

#[test]
fn the_examples() {
    all_at(&[(".i 1 2", 6), (".e x", 4), ("0101 11 1", 9), ("01 1", 3), ("01  #", 6)]);
    all_first_at(&[(".i 123456", 9), (".i4", 3), (".en", 4), (".", 2), ("0", 1), ("1", 1), ("-", 1)]);
    assert_eq!(refusal(".i 4\n.i 4x"), refused(2, 2, 5));
    assert_eq!(refusal(".i 4\n.i 4"), refused(2, 2, 1));
    assert_eq!(report(b""), "refused 5 at line 0 column 0\n");
    assert_eq!(report(b".i 4\n.o 1\n0101 x"), "refused 2 at line 3 column 6\n");
    assert_eq!(report(b".i 6\n.o 1\n010101\n.e"), "refused 2 at line 3 column 7\n");
}

#[test]
fn answers_of_the_protocol() {
    let says = |operation: &str, text: &[u8]| answer(format!("{operation} {}", bytes_text(text)).as_bytes());
    let late = [vec![b' '; 300], b".ix".to_vec()].concat();
    assert_eq!(says("table", &late), "refused 2 1 12f");
    assert_eq!(says("table", b""), "refused 5 0 0");
    assert_eq!(says("table", &[b'#'; 65_537]), "refused 1 0 0");
    assert_eq!(says("report", &late), format!("ok ; {}", bytes_text(b"refused 2 at line 1 column 303\n")));
    assert_eq!(says("read", b""), "refused b 0");
    assert_eq!(says("read-blif", b""), "refused e 0");
    assert_eq!(answer(b"factored ; ; -"), "refused 9 0 ; -");
}

#[test]
fn bytes_with_which_no_good_line_goes_on() {
    all_at(&[("x", 1), ("  x", 3), ("..", 2), (".x", 2), (". i 4", 2), (".I 4", 2), ("e", 1), ("\0", 1)]);
    all_at(&[(".ex", 3), (".end.", 5), (".ende", 5), (".en d", 4), (".e\tnd", 4), (".enx", 4), ("\t.end \r.", 8)]);
    all_at(&[(".ix", 3), (".i x", 4), (".i  -1", 5), (".o\t+1", 4), (".p 1x", 5), (".p 12.", 6), (".p 123,", 7)]);
    all_at(&[(".p 1234e", 8), (".p 12345e", 9), (".p 123456", 9), (".p 000000000", 9), (".p 12345 6", 10)]);
    all_at(&[("2", 1), ("0x", 2), ("01-x", 4), ("01-0x", 5), ("01-01 11", 5), ("01-0 x", 6), ("01-0 -1", 6)]);
    all_at(&[("01-0 1-", 7), ("01-0 1 1", 7), ("01-0 111", 8), ("01-0 11x", 8), ("01-0 11  \r 0", 12)]);
    all_at(&[(" 0 1", 3), ("   010 11", 7), ("01-0\t\t\r.", 8), ("01-0 11.", 8), ("0.1-0 11", 2)]);
}

#[test]
fn bytes_of_any_value() {
    for byte in (0..=255).filter(|byte| *byte != b'\n') {
        let column = |start: &[u8]| refusal([start, &[byte]].concat()).map(|refusal| refusal.column);
        let is_end = b" \t\r#".contains(&byte);
        assert_eq!(column(b".i"), Some(if is_end { 4 } else { 3 }), "{byte}");
        assert_eq!(column(b".p 1"), Some(if is_end || byte.is_ascii_digit() { 0 } else { 5 }), "{byte}");
        assert_eq!(column(b".p x"), Some(4), "{byte}");
        assert_eq!(column(b"x"), Some(1), "{byte}");
    }
}

#[test]
fn lines_that_end_too_soon() {
    all_at(&[(".", 2), (".  ", 4), (" .#", 4), (".i", 3), (".i ", 4), (".i \t\r", 6), (".o # 4", 7), (".p#1", 5)]);
    all_at(&[(".en", 4), (".en\r", 5), (" .en #d", 8), ("0", 2), ("01-0", 5), ("01-0 ", 6), ("01-0 1", 7)]);
    all_at(&[("01-0 1  # 1", 12), ("01-0#11", 8), ("  01-0  1\t#\0\u{80}", 15), ("-##", 4), ("01-0\r", 6)]);
    assert_eq!(refusal(b".i 4\n.o 2\n01-0 1"), refused(2, 3, 7));
}

#[test]
fn lines_before_both_sizes_are_known() {
    all_first_at(&[("01 1", 1), ("  -", 3), ("\t1 1", 2), ("x", 1), (".x", 2), (".i", 3), (" .e", 2), (".end", 1)]);
    for head in [".i 2", ".o 2", ".p 2", "#", ""] {
        for (line, column) in [("00 00", 1), (" 0", 2), ("\r\t-- 11", 3), (".en", 4), (" .end #", 2), ("0 #", 1)] {
            assert_eq!(refusal(format!("{head}\n{line}\n")), refused(2, 2, column), "{head} {line}");
        }
    }
    assert_eq!(refusal(".i 2\n.o 2\n00 00\n.e"), None);
}

#[test]
fn repeated_and_misplaced_lines() {
    for head in [".i 4\n.o 2\n.p 9\n#", ".p 0\n.o 2\n.i 4\n1111 11", ".o 2\n.i 4\n\n1111 11"] {
        for line in [".i 4", ".o 2", ".p 9", ".i 0", ".o 99999", ".p 99999", ".p\t 00001"] {
            for (front, column) in [("", 1), (" ", 2), ("\t\r ", 4)] {
                assert_eq!(refusal(format!("{head}\n{front}{line} # 1")), refused(2, 5, column), "{head} {line}");
            }
        }
        assert_eq!(refusal(format!("{head}\n .i 4x")), refused(2, 5, 6));
        assert_eq!(refusal(format!("{head}\n .p")), refused(2, 5, 4));
    }
}

#[test]
fn numbers_out_of_range() {
    let cases = [(".i 0", 4), (".o 33", 4), (".i   00033 # 1", 6), (" \t.o\t\r99999\r", 7), (".p 32769", 4)];
    for (line, column) in cases {
        assert_eq!(refusal(format!("# 9\n{line}\n.e")), refused(3, 2, column), "{line}");
    }
}

#[test]
fn promises_that_do_not_hold() {
    let table = |promise: usize, end: &str| refusal(format!(".i 1\n.o 1\n.p {promise}\n1 1\n{end}\n"));
    assert_eq!(table(0, ".e"), refused(4, 5, 1));
    assert_eq!(table(2, " \t.end # .e"), refused(4, 5, 3));
    assert_eq!(table(1, " .e"), None);
}

/// A table of 32 outputs with room left for so many rows, and one more line.
fn brimful(left: usize, line: &str) -> Option<Refusal> {
    let rows = |many: usize| format!("- {}{}\n", "1".repeat(many), "0".repeat(32 - many));
    let full = rows(32).repeat(31) + &rows(32 - left);
    refusal(format!(".i 1\n.o 32\n{full}{line}\n.e"))
}

#[test]
fn one_row_too_many() {
    let marks = "01".repeat(16);
    for left in 0..16 {
        assert_eq!(brimful(left, &format!("0 {marks}")), refused(6, 35, 2 * left as u64 + 4));
        assert_eq!(brimful(left, &format!(" \t1\r  {marks}#11")), refused(6, 35, 2 * left as u64 + 8));
        assert_eq!(brimful(left, &format!("0 {marks}1")), refused(2, 35, 35));
    }
    assert_eq!(brimful(16, &format!("0 {marks}")), None);
    assert_eq!(brimful(0, &format!("0 {}", "0".repeat(32))), None);
}

/// A line of a kind, by the paper's words.
fn is_good(line: &str, sizes: Sizes) -> bool {
    let kept = line.split('#').next().unwrap_or("").trim_matches(BLANKS);
    let is_number = |rest: &str| {
        let digits = rest.trim_start_matches(BLANKS);
        let is_apart = digits.len() < rest.len();
        is_apart && (1..=5).contains(&digits.len()) && digits.chars().all(|c| c.is_ascii_digit())
    };
    let is_cube = |(inputs, outputs): (usize, usize)| {
        let (left, rest) = kept.split_at(inputs.min(kept.len()));
        let right = rest.trim_start_matches(BLANKS);
        let is_long = left.len() == inputs && right.len() == outputs && right.len() < rest.len();
        is_long && left.chars().all(|c| "01-".contains(c)) && right.chars().all(|c| "01".contains(c))
    };
    ["", ".e", ".end"].contains(&kept)
        || [".i", ".o", ".p"].iter().any(|start| kept.strip_prefix(start).is_some_and(is_number))
        || sizes.is_some_and(is_cube)
}

/// Every string over the alphabet, up to a length.
fn strings(alphabet: &str, most: usize) -> Vec<String> {
    let mut all = vec![String::new()];
    let mut from = 0;
    for _ in 0..most {
        let longest = all[from..].to_vec();
        from = all.len();
        all.extend(longest.iter().flat_map(|start| alphabet.chars().map(move |c| format!("{start}{c}"))));
    }
    all
}

/// All that good lines begin with, of the lines given.
fn beginnings(lines: &[String], sizes: Sizes) -> HashSet<&str> {
    let good = lines.iter().filter(|line| is_good(line, sizes));
    good.flat_map(|line| (0..=line.len()).map(|end| &line[..end])).collect()
}

/// The column of a line of no kind, by the paper's words.
fn column(line: &str, beginnings: &HashSet<&str>) -> usize {
    let kept = line.split('#').next().unwrap_or("");
    let left = kept.trim_matches(BLANKS);
    if beginnings.contains(left) {
        return line.len() + 1;
    }
    let front = kept.len() - kept.trim_start_matches(BLANKS).len();
    let stray = (1..=left.len()).find(|end| !beginnings.contains(&left[..*end]));
    front + stray.expect("a byte that does not go on")
}

/// The refusal of the line as the third, once the sizes are known or not.
fn third(line: &str, sizes: Sizes) -> Option<Refusal> {
    let head = sizes.map_or("\n".to_string(), |(inputs, outputs)| format!(".i {inputs}\n.o {outputs}"));
    refusal(format!("{head}\n{line}\n"))
}

const SIZES: [Sizes; 5] = [None, Some((1, 1)), Some((1, 2)), Some((2, 1)), Some((2, 2))];

/// What begins a good line and has up to four bytes begins one of up to six.
#[test]
fn short_lines_by_the_words_of_the_paper() {
    let candidates = strings(" \t.iend01-", 6);
    let lines = strings(" \t.iend01-x#", 4);
    let r = &mut Random::new(12);
    for sizes in SIZES {
        let beginnings = beginnings(&candidates, sizes);
        let mut met = 0;
        for line in lines.iter().filter(|line| !is_good(line, sizes)) {
            let (front, end) = (r.pick(&["", " ", "\r\t"]), r.pick(&["", "  ", "\t#", "#1 1"]));
            for line in [line.clone(), format!("{front}{line}{end}")].iter().filter(|line| !is_good(line, sizes)) {
                let expected = refused(2, 3, column(line, &beginnings) as u64);
                assert_eq!(third(line, sizes), expected, "{line:?} {sizes:?}");
                met += 1;
            }
        }
        assert!(met > 30_000, "few lines of no kind: {met}");
    }
}

/// A line of a kind with any sizes, and what they are.
fn some_good_line(r: &mut Random) -> (String, Sizes) {
    let (inputs, outputs) = (r.between(1, 32), r.between(1, 32));
    let blanks = |r: &mut Random, least: usize| -> String {
        let many = r.between(least, least + 3);
        (0..many).map(|_| r.pick(&BLANKS)).collect()
    };
    let marks = |r: &mut Random, many: usize, of: &[u8]| -> String { (0..many).map(|_| r.pick(of) as char).collect() };
    let digits = r.between(1, 5);
    let middle = match r.below(6) {
        0 => r.pick(&[".e", ".end"]).to_string(),
        1 => r.pick(&[".i", ".o", ".p"]).to_string() + &blanks(r, 1) + &marks(r, digits, b"0123456789"),
        _ => marks(r, inputs, b"01-") + &blanks(r, 1) + &marks(r, outputs, b"01"),
    };
    (blanks(r, 0) + &middle + &blanks(r, 0), Some((inputs, outputs)))
}

#[test]
fn a_stray_byte_anywhere_in_a_good_line() {
    let r = &mut Random::new(13);
    for _ in 0..300 {
        let (line, sizes) = some_good_line(r);
        for place in 0..=line.len() {
            let stray = r.pick(&["x", "~", "\0", "\u{7f}", ",", "\u{e9}"]);
            let at = refused(2, 3, place as u64 + 1);
            let (before, after) = line.split_at(place);
            assert_eq!(third(&format!("{before}{stray}{after}"), sizes), at, "{line:?}");
            assert_eq!(third(&format!("{before}{stray}#{after}"), sizes), at, "{line:?}");
        }
    }
}

#[test]
fn every_beginning_of_a_good_line() {
    let r = &mut Random::new(14);
    for _ in 0..300 {
        let (line, sizes) = some_good_line(r);
        for end in 0..line.len() {
            let cut = line[..end].to_string() + r.pick(&["", "#", " \t\r", "\r# x"]);
            if !is_good(&cut, sizes) {
                assert_eq!(third(&cut, sizes), refused(2, 3, cut.len() as u64 + 1), "{cut:?}");
            }
        }
    }
}

#[test]
fn lines_as_long_as_a_text() {
    let blanks = |many: usize| " ".repeat(many);
    assert_eq!(refusal(blanks(65_534) + ".i"), refused(2, 1, 65_537));
    assert_eq!(refusal(blanks(65_535) + "x"), refused(2, 1, 65_536));
    assert_eq!(refusal(format!(".i{}0", blanks(65_533))), refused(3, 1, 65_536));
    assert_eq!(refusal(format!(".i 1{}x", blanks(65_531))), refused(2, 1, 65_536));
    assert_eq!(refusal(blanks(65_534) + ".e"), refused(2, 1, 65_535));
    assert_eq!(refusal(blanks(65_535) + ".i"), refused(1, 0, 0));
}

#[test]
fn requests_that_meet_every_sort_of_column() {
    let mut met: BTreeMap<u64, BTreeSet<u64>> = BTreeMap::new();
    for request in requests(2026, 2_000, &["table"]) {
        let said = answer(&request);
        let numbers = said.strip_prefix("refused ").unwrap_or("").split(' ');
        let numbers: Vec<u64> = numbers.filter_map(|number| u64::from_str_radix(number, 16).ok()).collect();
        if let [number, _, column] = numbers[..] {
            met.entry(number).or_default().insert(column);
        }
    }
    let columns = |number: u64| met.get(&number).map_or(0, BTreeSet::len);
    assert_eq!([1, 5].map(|number| met[&number].clone()), [BTreeSet::from([0]), BTreeSet::from([0])]);
    assert!(columns(2) > 40 && columns(3) > 4 && columns(4) > 2 && columns(6) > 20, "{met:?}");
    assert!(met[&2].iter().any(|column| *column > 65_000), "{met:?}");
}
