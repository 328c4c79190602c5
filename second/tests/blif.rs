//! BLIF texts: the example byte for byte, each rule of the form, and networks that come back.

mod common;

use common::{expression, random_expression, single};
use second::cubes::{Cube, Expression, Variable};
use second::extract::run;
use second::generate::{requests, Random};
use second::network::{Network, MOST_CUBES};
use second::protocol::{answer, bytes_text};
use second::{blif, image};
use std::time::{Duration, Instant};

const WORKED: &str = "\
.model net
.inputs x0 x1 x2 x3
.outputs y0
.names x0 x1 x4
1- 1
-1 1
.names x2 x3 x4 y0
1-1 1
-11 1
.end
";

/// The network of the first worked step.
fn worked() -> Network {
    let mut network = single(4, expression("ac+ad+bc+bd"));
    run(&mut network, 64);
    network
}

/// A text of two inputs and one output around the lines given.
fn around(lines: &str) -> String {
    format!(".model m\n.inputs x0 x1\n.outputs y0\n{lines}\n.end")
}

fn refuses(number: u64, text: impl AsRef<[u8]>) {
    let text = text.as_ref();
    let shown = text.escape_ascii().to_string();
    assert_eq!(blif::read(text), Err(number), "{}", &shown[..shown.len().min(400)]);
}

/// Each of the lines, put into a text, is refused by the number.
fn all_refuse(number: u64, cases: &[&str]) {
    cases.iter().for_each(|lines| refuses(number, around(lines)));
}

fn reads(text: impl AsRef<[u8]>, expected: &Network) {
    let text = text.as_ref();
    assert_eq!(blif::read(text).as_ref(), Ok(expected), "{}", text.escape_ascii());
}

#[test]
fn the_example_both_ways() {
    assert_eq!(blif::write(&worked()), WORKED);
    reads(WORKED, &worked());
    let net = "4 1 1 ; 2 2 ; 14 0 18 0 1 0 2 0";
    let (text, long) = (bytes_text(WORKED.as_bytes()), WORKED.len());
    let ask = |room: &str| answer(format!("write-blif ; {net} ; {room}").as_bytes());
    assert_eq!(ask(&"ee".repeat(long)), format!("ok {long:x} ; {text}"));
    assert_eq!(ask(&"ee".repeat(long + 2)), format!("ok {long:x} ; {text}eeee"));
    assert_eq!(ask(&"ee".repeat(long - 1)), format!("refused 9 0 ; {}", "ee".repeat(long - 1)));
    assert_eq!(ask("-"), "refused 9 0 ; -");
    assert_eq!(answer(format!("read-blif {text}").as_bytes()), format!("ok ; {net}"));
}

#[test]
fn refusals_in_the_protocol() {
    assert_eq!(answer(b"write-blif ; 0 1 0 ; ; ; ee"), "refused a 0 ; ee");
    assert_eq!(answer(b"write-blif ; 1 1 1 ; 0 1 ; 2 0 ; -"), "refused a 0 ; -");
    assert_eq!(answer(b"read-blif -"), "refused e 0");
    let ask = |text: &str| answer(format!("read-blif {}", bytes_text(text.as_bytes())).as_bytes());
    assert_eq!(ask(".model m\n.inputs x0\n.outputs y0\n.end\n"), "refused f 0");
    assert_eq!(ask(".model m\n.inputs\n.outputs y0\n.names y0\n.end\n"), "refused a 0");
    for line in ["write-blif ; 1 1 0 ; ; ;", "write-blif 0", "read-blif", "read-blif 0", "read-blif ; -"] {
        assert_eq!(answer(line.as_bytes()), "no request", "{line}");
    }
}

#[test]
fn constants() {
    let outputs = ["", "1", "b'"].map(expression).to_vec();
    let network = Network { inputs: 2, outputs, divisors: vec![expression("1"), expression("")] };
    let text = ".model net\n.inputs x0 x1\n.outputs y0 y1 y2\n\
                .names x2\n1\n.names x3\n.names y0\n.names y1\n1\n.names x1 y2\n0 1\n.end\n";
    assert_eq!(blif::write(&network), text);
    reads(text, &network);
}

#[test]
fn orders_and_names_that_do_not_matter() {
    let blocks = ".names x2 x3 x4 y0\n-11 1\n1-1 1\n.names x0 x1 x4\n-1 1\n1- 1";
    let head = ".inputs x0 x1 x2 x3\n.outputs y0";
    let models: [&[u8]; 9] = [b"m", b"x9", b".end", b"#", b"a#b", b"a\\b", b"\xff\x80", b"\0", b"\x0b"];
    for model in models {
        for end in ["\n.end", "\n.end\n"] {
            let rest = format!("\n{head}\n{blocks}{end}");
            reads([b".model ", model, rest.as_bytes()].concat(), &worked());
        }
    }
}

#[test]
fn broken_lines() {
    for place in 0..=WORKED.len() {
        for many in 1..4 {
            let (before, after) = WORKED.split_at(place);
            reads(format!("{before}{}{after}", "\\\n".repeat(many)), &worked());
        }
    }
    let everywhere: String = WORKED.chars().map(|c| format!("\\\n{c}")).collect();
    reads(everywhere + "\\\n", &worked());
    reads(format!("{}\\\n", WORKED.trim_end()), &worked());
}

#[test]
fn what_a_break_leaves_is_no_new_break() {
    reads(WORKED.replace("net\n", "net\\\\\n\n"), &worked());
    refuses(14, WORKED.replace("net\n", "net\\\n"));
    refuses(14, WORKED.replace("1- 1\n", "1- 1\\\\\n\n"));
    refuses(14, WORKED.replace("1- 1\n", "1- 1\\ \n"));
    refuses(14, WORKED.replace("1- 1\n", "1- 1\\\r\n"));
    refuses(14, format!("{WORKED}\\"));
    refuses(14, WORKED.replace("x0 x1 x4", "x0 x1\\\nx4"));
}

#[test]
fn lines_outside_the_form() {
    for text in ["", "\n", ".end", ".end\n", ".model m\n.end", ".model m\n.inputs x0\n.end", "\\\n", "\\"] {
        refuses(14, text);
    }
    for (place, byte) in WORKED.bytes().enumerate() {
        let (before, after) = (&WORKED[..place], &WORKED[place + 1..]);
        let others: &[&str] = match byte {
            b' ' => &["  ", "\t", "\r", "\n", "", " \t", " # "],
            b'\n' => &[" \n", "\n ", "\n\n", "\n#\n", "\n# no\n", " # no\n", "\r\n", "\t\n", "\\\n\n\n"],
            _ => &["\t", "\r", "\n"],
        };
        others.iter().for_each(|other| refuses(14, [before, other, after].concat()));
    }
    refuses(14, WORKED.replace("1- 1\n", "1- 1#\n"));
    refuses(14, WORKED.replace("1- 1\n", "1- 1\n.names\n"));
    refuses(14, format!(" {WORKED}"));
    refuses(14, format!("\n{WORKED}"));
    refuses(14, format!("#\n{WORKED}"));
}

#[test]
fn lines_missing_repeated_or_moved() {
    let lines: Vec<&str> = WORKED.lines().collect();
    for place in [0, 1, 2, 9] {
        let mut fewer = lines.clone();
        fewer.remove(place);
        refuses(14, fewer.join("\n"));
        for to in 0..lines.len() {
            let mut more = lines.clone();
            more.insert(to, lines[place]);
            refuses(14, more.join("\n"));
        }
        for other in (0..lines.len()).filter(|other| *other != place) {
            let mut moved = lines.clone();
            moved.swap(place, other);
            refuses(14, moved.join("\n"));
        }
    }
    for end in ["\n", " ", "x", "\n.end", "\n.end\n", "\0", "#"] {
        refuses(14, format!("{WORKED}{end}"));
    }
    for model in [
        ".model",
        ".model ",
        ".model a b",
        ".model  a",
        ".model a ",
        ".model\ta",
        ".model a\tb",
        ".model a\r",
        "model a",
    ] {
        refuses(14, WORKED.replace(".model net", model));
    }
    for other in [".input", ".INPUTS", "inputs", ".inputs:", ".names"] {
        refuses(14, WORKED.replace(".inputs", other));
    }
    refuses(14, WORKED.replace(".end", ".e"));
    refuses(14, WORKED.replace(".end", ".end x"));
}

#[test]
fn inputs_and_outputs_count_from_0() {
    let head = |inputs: &str, outputs: &str| format!(".model m\n{inputs}\n{outputs}\n.names y0\n.end");
    reads(head(".inputs x0", ".outputs y0"), &single(1, expression("")));
    let inputs = ["x1", "x0 x2", "x1 x0", "x0 x0", "x00", "x0 x01", "y0", "x0 y0", "x", "a", "X0", "x0 ", "x0  x1"];
    inputs.iter().for_each(|names| refuses(14, head(&format!(".inputs {names}"), ".outputs y0")));
    for names in ["y1", "y0 y2", "y0 y0", "y00", "x0", "y0 x0", "y", "Y0", "y0 "] {
        refuses(14, head(".inputs x0", &format!(".outputs {names}")));
    }
    refuses(14, head(".inputs ", ".outputs y0"));
    refuses(10, head(".inputs", ".outputs y0"));
    refuses(10, ".model m\n.inputs x0\n.outputs\n.end");
    refuses(10, ".model m\n.inputs\n.outputs\n.end");
    refuses(10, ".model m\n.inputs\n.outputs y0\n.names x0\n1\n.names x0 y0\n0 1\n.end");
}

#[test]
fn names_of_a_block() {
    let cases = [
        ".names\n.names y0",
        ".names ",
        ".names y0 ",
        ".names x1 x0 y0\n11 1",
        ".names x0 x0 y0\n11 1",
        ".names x0 x1 x0 y0\n111 1",
        ".names y0\n.names x0 x2 x2\n11 1",
        ".names y0\n.names x2 x2\n1 1",
        ".names y0\n.names x3\n.names x3 x2\n1 1",
        ".names y0\n.names x3 x2\n1 1\n.names x2 x3\n1 1",
        ".names y0 x2\n1 1",
        ".names y0 y0\n1 1",
        ".names y1",
        ".names y0\n.names y1",
        ".names y0\n.names y18446744073709551616",
        ".names x00 y0\n1 1",
        ".names x01 y0\n1 1",
        ".names y00",
        ".names x y0\n1 1",
        ".names 0 y0\n1 1",
        ".names x-1 y0\n1 1",
        ".names x0 x1y0\n1 1",
        ".names X0 y0\n1 1",
        ".names x0\u{663} y0\n1 1",
        ".name y0",
        ".NAMES y0",
    ];
    all_refuse(14, &cases);
}

#[test]
fn rows_of_a_block() {
    let cases = [
        "1\n.names y0",
        ".names x0 y0\n1 0",
        ".names x0 y0\n1 1\n0 0",
        ".names y0\n0",
        ".names y0\n11",
        ".names y0\n 1",
        ".names y0\n- 1",
        ".names x0 y0\n1",
        ".names x0 y0\n1 ",
        ".names x0 y0\n11",
        ".names x0 y0\n1 1 1",
        ".names x0 y0\n1 11",
        ".names x0 y0\n11 1",
        ".names x0 x1 y0\n1 1",
        ".names x0 x1 y0\n1 1 1",
        ".names x0 y0\n2 1",
        ".names x0 y0\n~ 1",
        ".names x0 y0",
        ".names x0 y0\n- 1",
        ".names x0 x1 y0\n1- 1\n0- 1",
        ".names x0 x1 y0\n-- 1",
        ".names x1 y0\n.names x2\n1",
    ];
    all_refuse(14, &cases);
}

#[test]
fn gaps() {
    let cases = [
        ".names y0\n.names x3",
        ".names x3 y0\n1 1",
        ".names y0\n.names x2 x4\n1 1",
        ".names y0\n.names x18446744073709551615",
        ".names y0\n.names x18446744073709551616",
        ".names y0\n.names x18446744073709551618",
        ".names y0\n.names x4294967298",
        ".names y0\n.names x258",
        ".names x18446744073709551616 y0\n1 1",
        ".names x0 x18446744073709551617 y0\n11 1",
        ".names y0\n.names x99999999999999999999999 x99999999999999999999999999\n1 1",
    ];
    all_refuse(14, &cases);
    refuses(14, around(&format!(".names y0\n.names x1{}", "0".repeat(100_000))));
    all_refuse(15, &[".names x2 y0\n1 1", ".names y0\n.names x2 x3\n1 1"]);
}

#[test]
fn names_not_defined_once() {
    let cases = [
        ".names x2",
        ".names x2 y0\n1 1",
        ".names y0\n.names y0",
        ".names y0\n1\n.names x0 y0\n1 1",
        ".names y0\n.names x2\n.names x2\n1",
        ".names y0\n.names x0",
        ".names y0\n.names x1\n1",
        ".names y0\n.names x0 x1\n1 1",
    ];
    all_refuse(15, &cases);
    refuses(15, ".model m\n.inputs x0\n.outputs y0\n.end");
    refuses(15, ".model m\n.inputs x0\n.outputs y0 y1\n.names y0\n.end");
    refuses(15, ".model m\n.inputs\n.outputs y0\n.names x0 y0\n1 1\n.end");
}

#[test]
fn rows_that_make_no_expression() {
    let cases = [
        ".names x0 y0\n1 1\n1 1",
        ".names x0 x1 y0\n1- 1\n11 1",
        ".names x0 x1 y0\n11 1\n1- 1",
        ".names x0 x1 y0\n10 1\n-0 1",
        ".names x0 y0\n- 1\n1 1",
        ".names x0 x1 y0\n01 1\n-- 1",
        ".names x0 y0\n1 1\n- 1\n- 1",
        ".names y0\n1\n1",
        ".names y0\n.names x2\n1\n1",
    ];
    all_refuse(10, &cases);
    let both = single(2, expression("a+a'"));
    reads(around(".names x0 y0\n1 1\n0 1"), &both);
}

#[test]
fn numbers_in_turn() {
    all_refuse(14, &[".names x2 y0\n1 1\n1 0", ".names x0\n.names x3 y0\n1 1", ".names y0\n1\n1\n.names y1"]);
    all_refuse(15, &[".names x2 y0\n1 1\n1 1", ".names y0\n1\n1\n.names x0", ".names y0\n1\n1\n.names y0"]);
    refuses(14, ".model m\n.inputs\n.outputs y0\n.names x1 y0\n1 1\n.end");
    refuses(15, ".model m\n.inputs\n.outputs y0\n.end");
}

/// So many inputs, outputs and constant divisors.
fn sized(inputs: usize, outputs: usize, divisors: usize) -> String {
    let names = |kind: char, many: usize| (0..many).map(|i| format!(" {kind}{i}")).collect::<String>();
    let mut text = format!(".model m\n.inputs{}\n.outputs{}\n", names('x', inputs), names('y', outputs));
    text.extend((inputs..inputs + divisors).map(|own| format!(".names x{own}\n1\n")));
    text.extend((0..outputs).map(|own| format!(".names y{own}\n")));
    text + ".end\n"
}

#[test]
fn too_many_of_anything() {
    for (inputs, outputs, divisors) in [(32, 32, 32), (1, 1, 63), (1, 32, 0)] {
        assert_eq!(
            blif::read(sized(inputs, outputs, divisors).as_bytes()).map(|net| net.variables()),
            Ok(inputs + divisors)
        );
    }
    for (inputs, outputs, divisors) in [(33, 1, 0), (1, 33, 0), (1, 1, 64), (32, 1, 33), (0, 1, 5), (64, 64, 200)] {
        refuses(10, sized(inputs, outputs, divisors));
    }
    let names: String = (0..11).map(|i| format!(" x{i}")).collect();
    let rows = |many: usize| (0..many).map(|i| format!("{i:011b} 1\n")).collect::<String>();
    let cubes = |many: usize| format!(".model m\n.inputs{names}\n.outputs y0\n.names{names} y0\n{}.end", rows(many));
    assert_eq!(blif::read(cubes(MOST_CUBES).as_bytes()).map(|net| net.cube_count()), Ok(MOST_CUBES));
    refuses(10, cubes(MOST_CUBES + 1));
}

#[test]
fn too_many_literals() {
    let names: String = (0..32).map(|i| format!(" x{i}")).collect();
    let rows: String = (0..1_024).map(|i| format!("{i:032b} 1\n")).collect();
    let head = format!(".model m\n.inputs{names}\n.outputs y0 y1\n.names{names} y0\n{rows}");
    assert_eq!(blif::read(format!("{head}.names y1\n1\n.end").as_bytes()).map(|net| net.literal_count()), Ok(32_768));
    refuses(10, format!("{head}.names x5 y1\n0 1\n.end"));
}

/// A network whose divisors read those before them.
fn deep(r: &mut Random) -> Network {
    let (inputs, divisors, outputs) = (r.between(1, 6), r.below(6), r.between(1, 3));
    Network {
        inputs,
        divisors: (0..divisors).map(|own| random_expression(r, inputs + own, 4)).collect(),
        outputs: (0..outputs).map(|_| random_expression(r, inputs + divisors, 5)).collect(),
    }
}

/// The network with its divisors numbered backwards.
fn backwards(network: &Network) -> Network {
    let turned = (2 * network.inputs + network.divisors.len()) as u8;
    let is_input = |v: Variable| usize::from(v.0) < network.inputs;
    let mut new = network.renumbered(|v| if is_input(v) { v } else { Variable(turned - 1 - v.0) });
    new.divisors.reverse();
    new
}

#[test]
fn what_is_written_comes_back_renumbered() {
    let r = &mut Random::new(21);
    let mut moved = 0;
    for _ in 0..600 {
        let mut network = deep(r);
        run(&mut network, r.below(3) as u64);
        if r.one_in(2) {
            network = backwards(&network);
        }
        let ordered = image::in_listing_order(&network);
        moved += usize::from(ordered != network);
        let text = blif::write(&network);
        reads(&text, &ordered);
        assert_eq!(blif::write(&ordered), text);
        assert_eq!(image::write(&ordered), image::write(&network));
        (0..32).for_each(|setting| assert_eq!(ordered.evaluate(setting), network.evaluate(setting)));
        let cut = r.below(text.len() - 1);
        refuses(14, &text[..cut]);
    }
    assert!(moved > 100, "few networks renumbered: {moved}");
}

#[test]
fn renumbering_follows_the_image() {
    let read = |v: u8| Expression::from([Cube::of([Variable(v).negated()])]);
    let divisors = vec![read(4), read(0), read(3), read(1)];
    let text = blif::write(&Network { inputs: 2, outputs: vec![read(2)], divisors });
    let blocks = ".names x0 x2\n0 1\n.names x2 x3\n0 1\n.names x3 x4\n0 1\n.names x1 x5\n0 1\n.names x4 y0\n0 1";
    assert_eq!(text, format!(".model net\n.inputs x0 x1\n.outputs y0\n{blocks}\n.end\n"));
}

#[test]
fn what_is_read_is_read_again() {
    let names = ["read-blif"];
    let mut told = [0; 4];
    for request in requests(2026, 2_000, &names) {
        let said = answer(&request);
        let kinds = ["ok ; ", "refused e 0", "refused f 0", "refused a 0"];
        let Some(kind) = kinds.iter().position(|kind| said.starts_with(kind)) else {
            assert_eq!(said, "no request");
            continue;
        };
        told[kind] += 1;
        if let Some(net) = said.strip_prefix("ok ; ") {
            let written = answer(format!("write-blif ; {net} ; {}", "00".repeat(request.len())).as_bytes());
            let (count, text) = written.strip_prefix("ok ").and_then(|rest| rest.split_once(" ; ")).expect("a text");
            let long = usize::from_str_radix(count, 16).expect("a count");
            assert_eq!(answer(format!("read-blif {}", &text[..2 * long]).as_bytes()), said);
        }
    }
    assert!(told.iter().all(|many| *many >= 200), "answers told: {told:?}");
}

/// Texts of a million bytes, one of each kind of length.
fn million() -> Vec<(String, u64)> {
    let many = 1_000_000;
    let names: String = (0..many / 7).map(|i| format!(" x{i}")).collect();
    let lines = |first: &str, line: &str| around(format!("{first}{}", line.repeat(many / line.len())).trim_end());
    vec![
        (" ".repeat(many), 14),
        ("\n".repeat(many), 14),
        ("\\\n".repeat(many / 2), 14),
        (format!(".model {}\n.end", "n".repeat(many)), 14),
        (around(&format!(".names y0\n.names x{}", "9".repeat(many))), 14),
        (around(&format!(".names x0 y0\n{} 1", "-".repeat(many))), 14),
        (around(&format!(".names y0\n.names{names} y0")), 14),
        (lines(".names x0 x1 y0\n", "-- 1\n"), 14),
        (lines(".names x0 x1 y0\n", "11 1\n"), 10),
        (lines("", ".names y0\n"), 15),
        (sized(many / 7, 1, 0), 10),
        (sized(1, many / 18, 0), 10),
        (sized(1, 1, many / 16), 10),
        (format!(".model m\n.inputs\n.outputs y0\n.names{names} y0\n{} 1\n.end", "1".repeat(many / 7)), 15),
    ]
}

#[test]
fn a_text_has_no_longest_length() {
    for (text, number) in million() {
        let start = Instant::now();
        refuses(number, &text);
        assert!(start.elapsed() < Duration::from_millis(700), "{number}: {:?}", start.elapsed());
    }
    let named = format!(".model {}{}\n{}", "\\\n".repeat(300_000), "n".repeat(500_000), &WORKED[11..]);
    reads(named, &worked());
}
