//! The kinds of a table's lines.

/// A line of a kind.
pub enum Kind<'a> {
    Empty,
    Inputs(u32),
    Outputs(u32),
    Promise(u32),
    End,
    Cube { literals: &'a [u8], marks: &'a [u8] },
}

/// Inputs and outputs, once both are known: only then is there a cube line.
pub type Sizes = Option<(usize, usize)>;

pub fn is_blank(byte: &u8) -> bool {
    matches!(*byte, b' ' | b'\t' | b'\r')
}

/// What stands before the comment.
pub fn before_comment(line: &[u8]) -> &[u8] {
    line.split(|byte| *byte == b'#').next().unwrap_or(&[])
}

/// The kind of a line, whether or not it may stand here; none for a line of no kind.
pub fn kind_of(line: &[u8], sizes: Sizes) -> Option<Kind<'_>> {
    match words_of_line(line).as_slice() {
        [] => Some(Kind::Empty),
        [b".i", n] => number_of(n).map(Kind::Inputs),
        [b".o", n] => number_of(n).map(Kind::Outputs),
        [b".p", n] => number_of(n).map(Kind::Promise),
        [b".e"] | [b".end"] => Some(Kind::End),
        [literals, marks] => cube_line(literals, marks, sizes),
        _ => None,
    }
}

/// The words of a line once its comment and its blanks are gone.
fn words_of_line(line: &[u8]) -> Vec<&[u8]> {
    before_comment(line).split(is_blank).filter(|word| !word.is_empty()).collect()
}

/// N: one to five digits.
fn number_of(word: &[u8]) -> Option<u32> {
    let fits = (1..=5).contains(&word.len()) && word.iter().all(u8::is_ascii_digit);
    let digits = fits.then(|| word.iter().map(|d| u32::from(d - b'0')));
    digits.map(|each| each.fold(0, |sum, digit| 10 * sum + digit))
}

/// n of `0 1 -`, blanks, m of `0 1`.
fn cube_line<'a>(literals: &'a [u8], marks: &'a [u8], sizes: Sizes) -> Option<Kind<'a>> {
    let fits = sizes == Some((literals.len(), marks.len()))
        && literals.iter().all(|c| b"01-".contains(c))
        && marks.iter().all(|c| b"01".contains(c));
    fits.then_some(Kind::Cube { literals, marks })
}
