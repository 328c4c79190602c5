//! Holds the answers of two programs against each other, and counts what a
//! set of answers reaches.

use std::collections::BTreeMap;

/// The operations that a request may name.
pub const OPERATIONS: [&str; 12] = [
    "table",
    "divide",
    "cokernels",
    "factored",
    "literals",
    "evaluate",
    "extract",
    "write",
    "read",
    "write-blif",
    "read-blif",
    "report",
];

/// Lines that name none of them, or that are not text.
pub const OTHER: &str = "other";

const MOST_SHOWN: usize = 10;
const MOST_CHARACTERS: usize = 2_000;

/// The lines of a file, also a last one that no LF ends.
pub fn lines_of(file: &[u8]) -> Vec<&[u8]> {
    let mut lines: Vec<&[u8]> = file.split(|byte| *byte == b'\n').collect();
    if lines.last().is_some_and(|last| last.is_empty()) {
        lines.pop();
    }
    lines
}

/// The operation that a request counts under.
pub fn operation_of(request: &[u8]) -> &'static str {
    let is_text = request.iter().all(|byte| (b' '..=b'~').contains(byte));
    let first = request.split(|byte| *byte == b' ').next().unwrap_or(&[]);
    let known = OPERATIONS.iter().find(|name| name.as_bytes() == first);
    known.filter(|_| is_text).unwrap_or(&OTHER)
}

/// Names in the order of the list, `other` last, those that were met.
fn met<T>(counts: &BTreeMap<&'static str, T>) -> Vec<&'static str> {
    let names = OPERATIONS.iter().chain([&OTHER]);
    names.filter(|name| counts.contains_key(**name)).copied().collect()
}

fn cut(bytes: &[u8]) -> String {
    let shown = &bytes[..bytes.len().min(MOST_CHARACTERS)];
    let mut text = shown.escape_ascii().to_string();
    if bytes.len() > MOST_CHARACTERS {
        text += &format!("... ({} bytes)", bytes.len());
    }
    text
}

/// What the comparison prints, and whether all is alike.
pub fn compare(requests: &[u8], left: &[u8], right: &[u8]) -> (String, bool) {
    let (requests, left, right) = (lines_of(requests), lines_of(left), lines_of(right));
    let mut counts: BTreeMap<&'static str, (usize, usize)> = BTreeMap::new();
    let mut printed = String::new();
    for (place, request) in requests.iter().enumerate() {
        let name = operation_of(request);
        let count = counts.entry(name).or_default();
        count.0 += 1;
        let (one, other) = (left.get(place), right.get(place));
        if one.is_some() && one == other {
            continue;
        }
        count.1 += 1;
        if count.1 <= MOST_SHOWN {
            let show = |line: Option<&&[u8]>| line.map_or("(no answer)".to_string(), |bytes| cut(bytes));
            printed += &format!("{name}, line {}\n  request {}\n", place + 1, cut(request));
            printed += &format!("  left    {}\n  right   {}\n", show(one), show(other));
        }
    }
    for name in met(&counts) {
        let (all, differ) = counts[name];
        let end = if differ == 0 { "all alike".to_string() } else { format!("{differ} differ") };
        printed += &format!("{name}: {all} requests, {end}\n");
    }
    let paired = requests.len() == left.len() && requests.len() == right.len();
    if !paired {
        printed += &format!("lines: {} requests, {} left, {} right\n", requests.len(), left.len(), right.len());
    }
    let alike = paired && counts.values().all(|count| count.1 == 0);
    (printed, alike)
}

/// What an answer says: `ok`, `ok` with a stop reason, `refused` with its
/// number, `no request`, or anything else.
fn kind_of(answer: &[u8]) -> String {
    let text = String::from_utf8_lossy(answer);
    let words: Vec<&str> = text.split(' ').take(2).collect();
    match words.as_slice() {
        ["no", "request"] => "no request".to_string(),
        ["ok", reason @ ("done" | "asked" | "numbers" | "rows")] => format!("ok {reason}"),
        ["ok", ..] => "ok".to_string(),
        ["refused", number] => match u64::from_str_radix(number, 16) {
            Ok(number) => format!("refused {number:2}"),
            Err(_) => "unknown".to_string(),
        },
        _ => "unknown".to_string(),
    }
}

/// How many answers of each kind every operation has had.
pub fn cover(requests: &[u8], answers: &[u8]) -> String {
    let mut counts: BTreeMap<&'static str, BTreeMap<String, usize>> = BTreeMap::new();
    for (request, answer) in lines_of(requests).iter().zip(lines_of(answers)) {
        let kinds = counts.entry(operation_of(request)).or_default();
        *kinds.entry(kind_of(answer)).or_default() += 1;
    }
    let mut printed = String::new();
    for name in met(&counts) {
        let kinds: Vec<String> = counts[name].iter().map(|(kind, many)| format!("{kind}: {many}")).collect();
        printed += &format!("{name}: {}\n", kinds.join(", ").replace("refused  ", "refused "));
    }
    printed
}
