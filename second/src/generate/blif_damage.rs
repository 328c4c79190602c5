//! What takes a BLIF text out of the form, leaves a name undefined, or makes a network that breaks a rule.

use super::blifs::{Block, Draft, Line};
use super::random::Random;

/// The number of a name that has one.
fn number_of(name: &str) -> usize {
    name.get(1..).and_then(|digits| digits.parse().ok()).unwrap_or(0)
}

fn is_output(block: &Block) -> bool {
    own_name(block).starts_with('y')
}

/// The name that a block defines.
fn own_name(block: &Block) -> String {
    block.names.last().cloned().unwrap_or_default()
}

fn constant(name: String, rows: usize) -> Block {
    Block { names: vec![name], rows: vec![Vec::new(); rows] }
}

/// One past the greatest x that is an input or has a block.
fn variables(draft: &Draft) -> usize {
    let own = draft.blocks.iter().filter(|block| !is_output(block)).map(|block| number_of(&own_name(block)));
    own.map(|number| number.saturating_add(1)).max().unwrap_or(0).max(draft.inputs.len())
}

/// Where the blocks of outputs stand, or those of divisors.
fn places(draft: &Draft, of_outputs: bool) -> Vec<usize> {
    (0..draft.blocks.len()).filter(|place| is_output(&draft.blocks[*place]) == of_outputs).collect()
}

/// Any block, often a divisor's.
fn some_block<'a>(r: &mut Random, draft: &'a mut Draft) -> &'a mut Block {
    if draft.blocks.is_empty() {
        draft.blocks.push(constant("y0".to_string(), 1));
    }
    let divisors = places(draft, false);
    let is_any = divisors.is_empty() || r.one_in(2);
    let at = if is_any { r.below(draft.blocks.len()) } else { r.pick(&divisors) };
    &mut draft.blocks[at]
}

/// A block at any place among the others.
fn add_block(r: &mut Random, draft: &mut Draft, block: Block) {
    let at = r.below(draft.blocks.len() + 1);
    draft.blocks.insert(at, block);
}

/// One more name at a place, with a mark of its own in each row.
fn add_name(block: &mut Block, at: usize, name: String, mut mark: impl FnMut() -> u8) {
    block.names.insert(at, name);
    for row in &mut block.rows {
        let place = at.min(row.len());
        row.insert(place, mark());
    }
}

/// One more name that some row uses.
fn read_name(r: &mut Random, block: &mut Block, at: usize, name: String) {
    let marks = r.pick(&[b"01", b"1-", b"0-"]);
    add_name(block, at, name, || r.pick(marks));
    match block.rows.first_mut() {
        Some(row) => row.iter_mut().skip(at).take(1).for_each(|mark| *mark = r.pick(b"01")),
        None => block.rows.push(vec![b'1'; block.names.len() - 1]),
    }
}

/// One of all names that stand in the draft.
fn some_name<'a>(r: &mut Random, draft: &'a mut Draft) -> Option<&'a mut String> {
    let blocks = draft.blocks.iter_mut().map(|block| &mut block.names);
    let mut lists: Vec<&mut Vec<String>> = [&mut draft.inputs, &mut draft.outputs].into_iter().chain(blocks).collect();
    lists.retain(|list| !list.is_empty());
    let at = r.below(lists.len().max(1));
    let list = lists.into_iter().nth(at)?;
    let place = r.below(list.len());
    list.get_mut(place)
}

/// A name by another one, wherever it stands.
fn rename(draft: &mut Draft, old: &str, new: &str) {
    let blocks = draft.blocks.iter_mut().map(|block| &mut block.names);
    let lists = [&mut draft.inputs, &mut draft.outputs].into_iter().chain(blocks);
    lists.flatten().filter(|name| *name == old).for_each(|name| *name = new.to_string());
}

/// Takes a draft out of the form, or comes close to it.
pub fn unform(r: &mut Random, draft: &mut Draft) {
    match r.below(22) {
        0..=9 => unform_reads(r, draft),
        10 => some_block(r, draft).rows.clear(),
        11 | 12 => unform_row(r, draft),
        13 | 14 => put_out_more(r, draft),
        15 => unform_name(r, draft),
        16 | 17 => leave_a_gap(r, draft),
        18 | 19 => wrap_a_number(r, draft),
        _ => unform_head(r, draft),
    }
}

/// Names that do not ascend, are read twice, are the block's own or a later one, an output's, or used by no row.
fn unform_reads(r: &mut Random, draft: &mut Draft) {
    let (variables, outputs) = (variables(draft), draft.outputs.len().max(1));
    let block = some_block(r, draft);
    let last = block.names.len() - 1;
    let at = r.below(last + 1);
    match r.below(9) {
        0 => block.names.swap(last, 0),
        1 => block.names.swap(at, (at + 1) % (last + 1)),
        2 => {
            let again = block.names[at].clone();
            read_name(r, block, at, again);
        }
        3 => {
            let own = own_name(block);
            read_name(r, block, last, own);
        }
        4 | 5 => {
            let own = number_of(&own_name(block));
            let later = r.between(own, variables.max(own + 1));
            read_name(r, block, last, format!("x{later}"));
        }
        6 => {
            let name = format!("y{}", r.below(outputs));
            read_name(r, block, last, name);
        }
        _ => read_unused(r, block, variables),
    }
}

/// A name in its place by number, with no literal in any row.
fn read_unused(r: &mut Random, block: &mut Block, variables: usize) {
    let most = if is_output(block) { variables } else { number_of(&own_name(block)) };
    let reads = &block.names[..block.names.len() - 1];
    let free: Vec<usize> = (0..most).filter(|v| !reads.contains(&format!("x{v}"))).collect();
    if free.is_empty() {
        block.rows.clear();
        return;
    }
    let new = r.pick(&free);
    let at = reads.iter().filter(|name| number_of(name) < new).count();
    add_name(block, at, format!("x{new}"), || b'-');
}

/// A row too long or too short, of other marks, or of no literal.
fn unform_row(r: &mut Random, draft: &mut Draft) {
    let block = some_block(r, draft);
    if block.rows.is_empty() {
        block.rows.push(vec![b'-'; block.names.len()]);
    }
    let at = r.below(block.rows.len());
    let row = &mut block.rows[at];
    let place = r.below(row.len().max(1));
    match r.below(6) {
        0 => row.push(r.pick(b"01-")),
        1 => {
            row.pop();
        }
        2 => row.clear(),
        3 if !row.is_empty() => row[place] = r.pick(b"2xX~ |.\x00\x81"),
        4 => block.rows = vec![vec![b'-'; block.names.len() - 1]],
        _ => row.extend(b" 1"),
    }
}

/// An output's block that `.outputs` does not name.
fn put_out_more(r: &mut Random, draft: &mut Draft) {
    let many = draft.outputs.len();
    match r.below(3) {
        0 => {
            draft.outputs.pop();
        }
        1 => {
            let block = constant(format!("y{}", many + r.below(3)), 1);
            add_block(r, draft, block);
        }
        _ => {
            let block = constant(format!("y{}", r.pick(&HUGE)), 0);
            add_block(r, draft, block);
        }
    }
}

const HUGE: [&str; 8] = [
    "99999999999999999999999",
    "18446744073709551615",
    "18446744073709551616",
    "9223372036854775807",
    "4294967295",
    "65535",
    "255",
    "1000000000000000000000000000000000000000000000000000000000000000000",
];

const ODD: [&str; 16] =
    ["", "x", "y", "z0", "X0", "Y0", "0", "x-1", "x+1", "x1a", "x1.", "x0x1", "xx0", "x\u{663}", "x0#", "x 0"];

/// A leading zero, or a word that is no name.
fn unform_name(r: &mut Random, draft: &mut Draft) {
    let odd = r.pick(&ODD);
    let with_zero = r.one_in(2);
    if let Some(name) = some_name(r, draft) {
        *name = if with_zero { name.replace('x', "x0").replace('y', "y0") } else { odd.to_string() };
    }
}

/// An x past the next number, or one less of those in use.
fn leave_a_gap(r: &mut Random, draft: &mut Draft) {
    let most = variables(draft);
    let over = if r.one_in(3) { r.pick(&HUGE).to_string() } else { (most + r.between(1, 3)).to_string() };
    match r.below(4) {
        0 => {
            let block = constant(format!("x{over}"), 0);
            add_block(r, draft, block);
        }
        1 => {
            let block = Block { names: vec![format!("x{most}"), format!("x{over}")], rows: vec![b"0".to_vec()] };
            add_block(r, draft, block);
        }
        2 => {
            let block = some_block(r, draft);
            let last = block.names.len() - 1;
            read_name(r, block, last, format!("x{over}"));
        }
        _ => rename(draft, &format!("x{}", most.saturating_sub(1)), &format!("x{over}")),
    }
}

/// A number and a power of two above it, which a machine word would take for the number itself.
fn wrap_a_number(r: &mut Random, draft: &mut Draft) {
    let by = 1u128 << r.pick(&[6, 7, 8, 16, 31, 32, 63, 64, 64, 64]);
    let everywhere = r.one_in(2);
    let Some(name) = some_name(r, draft) else {
        return;
    };
    let new = format!("{}{}", &name[..name.len().min(1)], by + number_of(name) as u128);
    let old = std::mem::replace(name, new.clone());
    if everywhere {
        rename(draft, &old, &new);
    }
}

/// Inputs or outputs with a gap, twice, in another order, or of the other kind.
fn unform_head(r: &mut Random, draft: &mut Draft) {
    let list = if r.one_in(2) { &mut draft.inputs } else { &mut draft.outputs };
    let at = r.below(list.len().max(1));
    let other = r.pick(&["x0", "y0", "x1", "y1", "x00", "x99999999999999999999999", "y2"]);
    match r.below(5) {
        0 if !list.is_empty() => {
            list.remove(at);
        }
        1 if !list.is_empty() => list.swap(at, 0),
        2 if !list.is_empty() => list.insert(at, list[at].clone()),
        3 => list.push(other.to_string()),
        _ => list.insert(at.min(list.len()), other.to_string()),
    }
}

/// A name that is read or put out and not defined, or defined twice; or nearly so.
pub fn undefine(r: &mut Random, draft: &mut Draft) {
    let next = variables(draft);
    match r.below(11) {
        0 | 1 => remove_block(r, draft, true),
        2 | 3 => remove_block(r, draft, false),
        4 | 5 => {
            let again = some_block(r, draft).clone();
            add_block(r, draft, again);
        }
        6 => {
            let block = constant(own_name(some_block(r, draft)), r.below(2));
            add_block(r, draft, block);
        }
        7 => define_input(r, draft),
        8 => {
            let at = r.below(draft.blocks.len().max(1));
            if let Some(block) = draft.blocks.get_mut(at).filter(|block| is_output(block)) {
                let last = block.names.len() - 1;
                read_name(r, block, last, format!("x{next}"));
            } else {
                draft.outputs.push(format!("y{}", draft.outputs.len()));
            }
        }
        9 => draft.outputs.push(format!("y{}", draft.outputs.len())),
        _ if r.one_in(2) => draft.inputs.push(format!("x{}", draft.inputs.len())),
        _ => {
            draft.inputs.pop();
        }
    }
}

fn remove_block(r: &mut Random, draft: &mut Draft, of_output: bool) {
    let places = places(draft, of_output);
    if !places.is_empty() {
        draft.blocks.remove(r.pick(&places));
    }
}

/// A block for an input, constant or reading a smaller one.
fn define_input(r: &mut Random, draft: &mut Draft) {
    let own = r.below(draft.inputs.len().max(1));
    let mut block = constant(format!("x{own}"), r.below(2));
    if own > 0 && r.one_in(2) {
        block = Block { names: vec![format!("x{}", r.below(own)), format!("x{own}")], rows: vec![b"1".to_vec()] };
    }
    add_block(r, draft, block);
}

/// Cubes that make no expression, or no inputs or outputs at all.
pub fn overdo(r: &mut Random, draft: &mut Draft) {
    match r.below(10) {
        0 => {
            let all = std::mem::take(&mut draft.inputs);
            let made = all.into_iter().map(|name| constant(name, r.below(2))).collect::<Vec<Block>>();
            draft.blocks.splice(0..0, made);
        }
        1 => {
            draft.outputs.clear();
            draft.blocks.retain(|block| !is_output(block));
        }
        2 => {
            let block = some_block(r, draft);
            *block = constant(own_name(block), 2);
        }
        _ => add_row(r, draft),
    }
}

/// A row that equals another, contains it or is contained in it, as the all-dash row is in every other.
fn add_row(r: &mut Random, draft: &mut Draft) {
    let places: Vec<usize> = (0..draft.blocks.len()).filter(|i| !draft.blocks[*i].rows.is_empty()).collect();
    if places.is_empty() {
        let block = some_block(r, draft);
        *block = constant(own_name(block), 2);
        return;
    }
    let rows = &mut draft.blocks[r.pick(&places)].rows;
    let mut row = rows[r.below(rows.len())].clone();
    let one = r.below(row.len().max(1));
    match r.below(4) {
        0 => (),
        1 => row.fill(b'-'),
        2 => row.iter_mut().skip(one).take(1).for_each(|mark| *mark = b'-'),
        _ => row.iter_mut().filter(|mark| **mark == b'-').take(1).for_each(|mark| *mark = r.pick(b"01")),
    }
    let at = r.below(rows.len() + 1);
    rows.insert(at, row);
}

const JUNK: [&[u8]; 24] = [
    b"",
    b" ",
    b"\t",
    b"\r",
    b"#",
    b"# a comment",
    b"\\",
    b".",
    b".names",
    b".names ",
    b".names y0 x0",
    b".end",
    b".model",
    b".model net",
    b".inputs",
    b".inputs x0",
    b".outputs y0",
    b".latch x0 y0",
    b".exdc",
    b"1",
    b"0",
    b"- 1",
    b"1 1",
    b"\xff",
];

const MODELS: [&[u8]; 6] = [b".model", b".model ", b".model a b", b".model a ", b".model\ta", b"model a"];

/// Takes the lines out of the form, or comes close to it.
pub fn unline(r: &mut Random, lines: &mut Vec<Line>) {
    let at = r.below(lines.len());
    let place = r.below(lines[at].len() + 1);
    match r.below(20) {
        0..=2 => lines.insert(at, JUNK[r.below(JUNK.len())].to_vec()),
        3..=5 => unblank(r, &mut lines[at]),
        6 | 7 => lines[at].push(r.pick(b" \t\r\0#1")),
        8 => lines[at].insert(0, r.pick(b" \t\r#")),
        9 | 10 => lines[at].insert(place, r.pick(b" \t\r#\\\xff")),
        11 => {
            lines.remove(at.min(3));
        }
        12 => {
            let again = lines[at.min(3)].clone();
            lines.insert(at, again);
        }
        13 => lines.swap(at, place.min(2)),
        14 | 15 => change_output(r, lines),
        16 => unend(r, lines),
        17 => lines[0] = MODELS[r.below(MODELS.len())].to_vec(),
        18 => change_first_word(r, &mut lines[at.min(3)]),
        _ => {
            let rest = lines[at].split_off(place);
            lines.insert(at + 1, rest);
        }
    }
    if r.one_in(20) {
        lines.iter_mut().for_each(|line| line.push(b'\r'));
    }
}

/// Another blank, or two, in place of one.
fn unblank(r: &mut Random, line: &mut Line) {
    let places: Vec<usize> = (0..line.len()).filter(|place| line[*place] == b' ').collect();
    if places.is_empty() {
        line.push(b' ');
        return;
    }
    let at = r.pick(&places);
    let new = [b"  ".as_slice(), b"\t", b" \t", b"\r", b"\n", b"\\\n\n", b"", b"\x0b", b" # "][r.below(9)];
    line.splice(at..=at, new.iter().copied());
}

/// Another output of a row.
fn change_output(r: &mut Random, lines: &mut [Line]) {
    let mut rows: Vec<&mut Line> = lines.iter_mut().filter(|line| line.ends_with(b"1") && line[0] != b'.').collect();
    if rows.is_empty() {
        return;
    }
    let at = r.below(rows.len());
    rows[at].pop();
    rows[at].extend([b"0".as_slice(), b"0", b"0", b"-", b"11", b"", b"1 1", b"2"][r.below(8)]);
}

/// No `.end`, another one, or something after it.
fn unend(r: &mut Random, lines: &mut Vec<Line>) {
    lines.pop();
    let ends: [&[u8]; 11] = [
        b"",
        b".e",
        b".END",
        b".end ",
        b".end x",
        b".end\n",
        b".end\n\n",
        b".end\n.end",
        b".end\nx",
        b".end\\",
        b".en",
    ];
    match r.below(12) {
        0 => (),
        at => lines.push(ends[at - 1].to_vec()),
    }
}

/// Another first word of a line.
fn change_first_word(r: &mut Random, line: &mut Line) {
    match r.below(4) {
        0 => line.make_ascii_uppercase(),
        1 if line.len() > 1 => {
            line.remove(1);
        }
        2 => line.insert(1, b's'),
        _ => *line = line.iter().copied().filter(|byte| *byte != b'.').collect(),
    }
}

/// Changes, cuts, moves or adds bytes at any place.
pub fn spoil_bytes(r: &mut Random, text: &mut Vec<u8>) {
    for _ in 0..r.between(1, 2) {
        let at = r.below(text.len().max(1));
        if at >= text.len() {
            return;
        }
        match r.below(8) {
            0 => text.truncate(at),
            1 => text[at] = r.word() as u8,
            2 => text[at] = r.pick(b"01-xy. \n\\"),
            3 => {
                text.remove(at);
            }
            4 => text.insert(at, r.pick(b"01-xy. \n\\\t\r")),
            5 => text.splice(at..at, b"\\\\\n\n".iter().copied()).for_each(drop),
            6 => text.rotate_left(at),
            _ => {
                let other = r.below(text.len());
                text.swap(at, other);
            }
        }
    }
}
