//! Requests and their answers, byte for byte.

use second::image::Bits;
use second::protocol::{answer, bytes_text, serve, MOST_LINE};

fn says(request: &str, expected: &str) {
    assert_eq!(answer(request.as_bytes()), expected, "to {request}");
}

fn table(text: &[u8]) -> String {
    answer(format!("table {}", bytes_text(text)).as_bytes())
}

#[test]
fn lines_that_are_no_request() {
    let lines = [
        "",
        " ",
        ";",
        "quit",
        "table",
        "table ",
        "table  -",
        " table -",
        "table - ",
        "table -\r",
        "table\t-",
        "table 0",
        "table 2E",
        "table 0g",
        "table - -",
        "table ; -",
        "table - ;",
        "TABLE -",
        "divide",
        "divide ; ; ;",
        "divide ; ; ; ; ;",
        "divide ;;;;",
        "cokernels ;  ;",
        "cokernels ; ; 00",
        "cokernels ; ; 01",
        "cokernels ; ; 10000000000000000",
        "cokernels ; ; +1",
        "cokernels ; ; A",
        "factored ; ;",
        "factored ; ; - -",
        "factored ; ; 0",
        "literals ; 1 1 ; ;",
        "literals ; 1 1 0 0 ; ;",
        "literals ; 1 1 0 ;",
        "literals 0 ; 1 1 0 ; ;",
        "evaluate ; 1 1 0 ; ;",
        "evaluate 0 0 ; 1 1 0 ; ;",
        "extract ; 1 1 0 ; ;",
        "write ; 1 1 0 ; ; ;",
        "write ; 1 1 0 ; ; ; 0",
        "read",
        "read ; -",
        "report",
        "report -0",
    ];
    for line in lines {
        says(line, "no request");
    }
    assert_eq!(answer(b"table \xff"), "no request");
    assert_eq!(answer(b"table \x00"), "no request");
}

#[test]
fn the_longest_line() {
    let line = |words: usize| format!("cokernels ; ; 10{}", " 0".repeat(words));
    let longest = line((MOST_LINE - 16) / 2);
    assert_eq!(longest.len(), MOST_LINE);
    assert!(answer(longest.as_bytes()).starts_with("ok 0 ; 10 0 0"));
    says(&format!("{longest} 0"), "no request");
    let bytes = "0a".repeat((MOST_LINE - 6) / 2);
    says(&format!("table {bytes}"), "refused 1 0 0");
    says(&format!("table {bytes}0a"), "no request");
}

#[test]
fn the_stream() {
    let mut out = Vec::new();
    serve(&b"\ncokernels ; ;\n\xff\n\nread -"[..], &mut out).unwrap();
    assert_eq!(out, b"no request\nok 0 ;\nno request\nno request\nrefused b 0\n");
    let mut out = Vec::new();
    serve(&b""[..], &mut out).unwrap();
    assert!(out.is_empty());
}

#[test]
fn tables() {
    assert_eq!(table(b".i 4\n.o 1\n1-1- 1\n1--1 1\n-11- 1\n-1-1 1\n.e"), "ok ; 4 1 0 ; 4 ; 5 0 9 0 6 0 a 0");
    assert_eq!(table(b".i 1\n.o 1\n.e"), "ok ; 1 1 0 ; 0 ;");
    assert_eq!(table(b".i 2\n.o 2\n0- 11\n01 01\n0- 10\n.e"), "ok ; 2 2 0 ; 1 1 ; 0 1 0 1");
    assert_eq!(table(b".o 1#\r\n\t.i  00001\r\n- 1 # all\n.end # .e\n.i 5"), "ok ; 1 1 0 ; 1 ; 0 0");
    assert_eq!(table(b".p 2\n.i 1\n.o 1\n1 0\n1 0\n.e"), "ok ; 1 1 0 ; 0 ;");
    assert_eq!(table(b".i 1\n.o 1\n.e#x"), "ok ; 1 1 0 ; 0 ;");
}

#[test]
fn table_refusals() {
    let cases: [(&[u8], &str); 30] = [
        (b"", "refused 5 0 0"),
        (b".i 4\n.o 1\n", "refused 5 0 0"),
        (b".e", "refused 2 1 1"),
        (b".i 1\n.e", "refused 2 2 1"),
        (b"1 1\n.i 1\n.o 1\n.e", "refused 2 1 1"),
        (b".i 0", "refused 3 1 4"),
        (b".i 33", "refused 3 1 4"),
        (b".o 33", "refused 3 1 4"),
        (b".i 000001", "refused 2 1 9"),
        (b".i4", "refused 2 1 3"),
        (b".i", "refused 2 1 3"),
        (b".i 4 4", "refused 2 1 6"),
        (b".i 1\n.i 99", "refused 2 2 1"),
        (b".i 1\n.o 1\n1 0\n.o 99", "refused 2 4 1"),
        (b".i 1\n.o 1\n1 0\n.p 1", "refused 2 4 1"),
        (b".p 32769", "refused 3 1 4"),
        (b".p 32768\n.p 32769", "refused 2 2 1"),
        (b".p 32768\n.i 1\n.o 1\n.e", "refused 4 4 1"),
        (b".p 1\n.e", "refused 2 2 1"),
        (b".i 1\n.o 1\n.e 5", "refused 2 3 4"),
        (b".i 1\n.o 1\n1 1 1", "refused 2 3 5"),
        (b".i 1\n.o 1\n11", "refused 2 3 2"),
        (b".i 1\n.o 1\n1 -", "refused 2 3 3"),
        (b".i 1\n.o 1\n11 1", "refused 2 3 2"),
        (b".i 1\n.o 1\n1 11", "refused 2 3 4"),
        (b".i 1\n.o 1\n\x00\n.e", "refused 2 3 1"),
        (b".i 1\n.o 1\n\x80\n.e", "refused 2 3 1"),
        (b".i 1\n.o 1\n1\x0b1\n.e", "refused 2 3 2"),
        (b"\n\n.type fd\n", "refused 2 3 2"),
        (b".i 1\n\n#\n.o 1\n.en", "refused 2 5 4"),
    ];
    for (text, expected) in cases {
        assert_eq!(table(text), expected, "{}", String::from_utf8_lossy(text));
    }
}

#[test]
fn table_limits() {
    let marks = "1".repeat(32);
    let rows = |lines: usize, more: &str| {
        let all = format!("- {marks}\n").repeat(lines);
        table(format!(".i 1\n.o 32\n{all}{more}.e").as_bytes())
    };
    assert!(rows(32, "").starts_with("ok ; 1 20 0 ; 1 1 "));
    assert_eq!(rows(32, &format!("1 {}1\n", "0".repeat(31))), "refused 6 23 22");
    assert!(rows(32, &format!("1 {}\n", "0".repeat(32))).starts_with("ok"));
    let good = b".i 1\n.o 1\n.e\n".to_vec();
    let padded = |whole: usize| [good.clone(), vec![b'x'; whole - good.len()]].concat();
    assert_eq!(table(&padded(65_536)), "ok ; 1 1 0 ; 0 ;");
    assert_eq!(table(&padded(65_537)), "refused 1 0 0");
    let inputs = |n: usize| table(format!(".i {n}\n.o 1\n{} 1\n.e", "1".repeat(n)).as_bytes());
    assert_eq!(inputs(32), "ok ; 20 1 0 ; 1 ; ffffffff 0");
    assert_eq!(inputs(33), "refused 3 1 4");
}

#[test]
fn division_and_its_rooms() {
    says("divide ; 5 0 9 0 6 0 a 0 ; 1 0 2 0 ; 7 7 7 7 ;", "ok 2 0 ; 4 0 8 0 ;");
    says("divide ; a 0 9 0 6 0 5 0 ; 2 0 1 0 ; 7 7 7 7 7 8 ; 9", "ok 2 0 ; 4 0 8 0 7 8 ; 9");
    says("divide ; 5 0 9 0 6 0 a 0 ; 1 0 2 0 ; 7 7 7 ; 9 9", "refused 9 0 ; 7 7 7 ; 9 9");
    says("divide ; 1 0 ; 2 0 ; ; 7", "refused 9 0 ; ; 7");
    says("divide ; 1 0 ; 2 0 ; ; 7 7 7", "ok 0 1 ; ; 1 0 7");
    says("divide ; 1 0 ; ; ; 7 7", "refused 8 0 ; ; 7 7");
    says("divide ; ; ; ;", "refused 8 0 ; ;");
    says("divide ; 1 ; ; ;", "refused 7 0 ; ;");
    says("divide ; 1 1 ; ; ;", "refused 7 0 ; ;");
    says("divide ; ; 0 0 ; ;", "ok 0 0 ; ;");
    let long = " 0".repeat(2_049);
    says(&format!("divide ; 1 1 ;{long} ; ;"), "refused 6 0 ; ;");
    says(&format!("divide ;{long} ; ; ;"), "refused 6 0 ; ;");
}

#[test]
fn cokernels_and_their_rooms() {
    says("cokernels ; 5 0 9 0 6 0 a 0 ; 1 2 3 4 5 6 7 8 9 a b", "ok 5 ; 0 0 1 0 2 0 4 0 8 0 b");
    says("cokernels ; 5 0 9 0 6 0 a 0 ; 1 2 3 4 5 6 7 8 9", "refused 9 0 ; 1 2 3 4 5 6 7 8 9");
    says("cokernels ; 1 0 ; 3", "ok 0 ; 3");
    says("cokernels ; 1 0 3 0 ; 3", "refused 7 0 ; 3");
    says("cokernels ; 1 0 1 0 ;", "refused 7 0 ;");
    says("cokernels ; 8000000000000000 0 0 8000000000000000 ; 5 5", "ok 1 ; 0 0");
}

#[test]
fn factored_texts_and_their_rooms() {
    says("factored ; ; -", "refused 9 0 ; -");
    says("factored ; ; ff", "ok 1 ; 30");
    says("factored ; 0 0 ; ffee", "ok 1 ; 31ee");
    says("factored ; 8 8000000000000000 ; 0000000000000000", "ok 7 ; 78332a7836332700");
    says("factored ; 1 1 ; 00", "refused 7 0 ; 00");
}

#[test]
fn networks_handed_in() {
    says("literals ; 1 1 0 ; ;", "ok 0");
    says("literals ; 4 1 0 ; 4 ; 5 0 9 0 6 0 a 0", "ok 8");
    says("literals ; 4 1 0 ; 4 7 ffffffffffffffff ; 5 0 9 0 6 0 a 0 1 1 1", "ok 8");
    says("literals ; 2 1 0 ; 1 ; 3", "ok 2");
    says("literals ; 1 1 0 ; 1 ;", "ok 0");
    says("literals ; 1 1 0 ; 2 ;", "refused a 0");
    for bad in
        ["0 1 0", "21 1 0", "1 0 0", "1 21 0", "1 1 40", "20 1 21", "1 1 ffffffffffffffff", "ffffffffffffffff 1 2"]
    {
        says(&format!("literals ; {bad} ; ;"), "refused a 0");
    }
    says("literals ; 1 1 3f ; ;", "ok 0");
    says("literals ; 1 1 0 ; 1 ; 2 0", "refused a 0");
    says("literals ; 1 1 0 ; 1 ; 1 1", "refused a 0");
    says("literals ; 2 1 0 ; 2 ; 1 0 3 0", "refused a 0");
    says("literals ; 1 1 1 ; 0 1 ; 2 0", "refused a 0");
    says("literals ; 1 1 2 ; 0 1 1 ; 4 0 2 0", "refused a 0");
    says("literals ; 1 1 2 ; 1 1 1 ; 2 0 4 0 1 0", "ok 3");
    says("literals ; 1 1 0 ; 441 ;", "refused a 0");
    says("literals ; 1 2 0 ; ffffffffffffffff 1 ;", "refused a 0");
    let counts = |many: usize| format!("literals ; 1 1 0 ;{} ;", " 0".repeat(many));
    says(&counts(96), "ok 0");
    says(&counts(97), "no request");
    let words = |many: usize| format!("literals ; 1 1 0 ; ;{}", " 0".repeat(many));
    says(&words(2_176), "ok 0");
    says(&words(2_177), "no request");
}

#[test]
fn evaluation() {
    let net = "4 1 1 ; 2 2 ; 14 0 18 0 1 0 2 0";
    says(&format!("evaluate 5 ; {net}"), "ok 1");
    says(&format!("evaluate fffffffffffffff4 ; {net}"), "ok 0");
    says(&format!("evaluate 10 ; {net}"), "ok 0");
    says("evaluate 0 ; 1 3 1 ; 0 1 1 1 ; 0 0 0 2 1 0", "ok 6");
}

#[test]
fn extraction() {
    let net = "4 1 0 ; 4 ; a 0 9 0 6 0 5 0";
    says(&format!("extract 40 ; {net}"), "ok done ; 4 1 1 ; 2 2 ; 14 0 18 0 1 0 2 0 ; sum 0 2 2 2");
    says(&format!("extract 1 ; {net}"), "ok done ; 4 1 1 ; 2 2 ; 14 0 18 0 1 0 2 0 ; sum 0 2 2 2");
    says(&format!("extract 0 ; {net}"), "ok asked ; 4 1 0 ; 4 ; 5 0 9 0 6 0 a 0");
    says("extract 0 ; 1 1 0 ; ;", "ok done ; 1 1 0 ; 0 ;");
    says("extract ffffffffffffffff ; 0 1 0 ; ;", "refused a 0");
    let pair = "5 3 0 ; 1 1 1 ; 7 0 b 0 13 0";
    says(&format!("extract 2 ; {pair}"), "ok done ; 5 3 1 ; 1 1 1 1 ; 24 0 28 0 30 0 3 0 ; pair 0 2 1 3");
    let parts = "6 1 0 ; 4 ; 13 0 10 c 23 0 20 c";
    let after = "6 1 1 ; 2 2 ; 50 0 60 0 3 0 0 c";
    says(&format!("extract 1 ; {parts}"), &format!("ok done ; {after} ; sum 0.2 5.7 4 2"));
}

#[test]
fn no_number_left_stops_a_run() {
    let zeros = " 0".repeat(63);
    let net = format!("1 1 3f ; 2{zeros} ; 7 0 b 0");
    says(&format!("extract 5 ; {net}"), &format!("ok numbers ; {net}"));
    says("extract 0 ; 1 1 3f ; 2 ; b 0 7 0", &format!("ok asked ; {net}"));
    says(
        &format!("extract 5 ; 1 1 3e ; 2{} ; 7 0 b 0", " 0".repeat(62)),
        &format!("ok done ; 1 1 3f ; 1{} 2 ; 8000000000000003 0 4 0 8 0 ; sum 4 6 1 1", " 0".repeat(62)),
    );
}

#[test]
fn images() {
    let net = "4 1 1 ; 2 2 ; 14 0 18 0 1 0 2 0";
    let bytes = "1180100404001040081041008308";
    says(&format!("write ; {net} ; {}", "ff".repeat(15)), &format!("ok e ; {bytes}ff"));
    says(&format!("write ; {net} ; {}", "ff".repeat(13)), &format!("refused 9 0 ; {}", "ff".repeat(13)));
    says("write ; 0 1 1 ; ; ; ff", "refused a 0 ; ff");
    says(&format!("read {bytes}"), "ok ; 4 1 1 ; 2 2 ; 14 0 18 0 1 0 2 0");
    for cut in (2..bytes.len()).step_by(2) {
        says(&format!("read {}", &bytes[..cut]), "refused b 0");
    }
    says("read -", "refused b 0");
    says(&format!("read {bytes}00"), "refused b 0");
    says("read 00", "refused c 0");
    says("read 10000000", "ok ; 1 1 0 ; 0 ;");
    says("read 10000001", "refused b 0");
    says("read 1000000000", "refused b 0");
}

/// Two inputs, one output, some divisors: the fields after the header.
fn reads(divisors: usize, fields: &[(usize, usize)], expected: &str) {
    let mut bits = Bits::default();
    [(1, 4), (1, 5), (0, 5), (divisors, 6)].iter().chain(fields).for_each(|(value, width)| bits.put(*value, *width));
    says(&format!("read {}", bytes_text(&bits.bytes())), expected);
}

#[test]
fn image_fields() {
    let good = "ok ; 2 1 0 ; 2 ; 1 0 0 2";
    reads(0, &[(2, 11), (1, 7), (0, 7), (1, 7), (3, 7)], good);
    reads(63, &[], "refused c 0");
    reads(62, &[], "refused b 0");
    reads(0, &[(1_089, 11)], "refused c 0");
    reads(0, &[(1_088, 11)], "refused b 0");
    reads(0, &[(1, 11), (3, 7)], "refused c 0");
    reads(0, &[(1, 11), (1, 7), (4, 7)], "refused c 0");
    reads(0, &[(1, 11), (2, 7), (0, 7), (1, 7)], "refused c 0");
    reads(0, &[(1, 11), (2, 7), (1, 7), (0, 7)], "refused c 0");
    reads(0, &[(1, 11), (2, 7), (0, 7), (0, 7)], "refused d 0");
    reads(0, &[(1, 11), (2, 7), (2, 7), (0, 7)], "refused d 0");
    reads(0, &[(2, 11), (1, 7), (3, 7), (1, 7), (0, 7)], "refused d 0");
    reads(0, &[(2, 11), (1, 7), (3, 7), (1, 7), (3, 7)], "refused d 0");
    reads(0, &[(2, 11), (1, 7), (0, 7), (2, 7), (0, 7), (2, 7)], "refused d 0");
    reads(0, &[(2, 11), (0, 7), (1, 7), (2, 7)], "refused d 0");
    reads(1, &[(1, 11), (1, 7), (4, 7), (0, 11)], "refused d 0");
    reads(2, &[(1, 11), (1, 7), (6, 7), (0, 11), (0, 11)], "refused d 0");
    reads(2, &[(0, 11), (1, 11), (1, 7), (4, 7), (0, 11)], "ok ; 2 1 2 ; 0 0 1 ; 4 0");
    reads(0, &[(2, 11), (1, 7), (3, 7), (1, 7), (0, 7), (0, 8)], "refused b 0");
}

#[test]
fn image_sums_come_after_the_end_and_before_the_order() {
    let node = |many: usize| [vec![(many, 11)], vec![(0, 7); many]].concat();
    let two = |more: usize, end: &[(usize, usize)]| {
        let header = vec![(1, 4), (0, 5), (1, 5), (0, 6)];
        let fields = [header, node(1_000), node(88 + more), end.to_vec()].concat();
        let mut bits = Bits::default();
        fields.iter().for_each(|(value, width)| bits.put(*value, *width));
        answer(format!("read {}", bytes_text(&bits.bytes())).as_bytes())
    };
    assert_eq!(two(0, &[]), "refused d 0");
    assert_eq!(two(1, &[]), "refused c 0");
    assert_eq!(two(1, &[(0, 8)]), "refused b 0");
    assert_eq!(two(1, &[(1, 1)]), "refused b 0");
}

#[test]
fn reports() {
    says("report -", &format!("ok ; {}", bytes_text(b"refused 5 at line 0 column 0\n")));
    let table = bytes_text(b".i 1\n.o 1\n.e");
    says(&format!("report {table}"), &format!("ok ; {}", bytes_text(b"start 0\nend 0 done\n")));
}
