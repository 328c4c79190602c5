//! A table cut short and with single bytes changed, to hold two readers against each other at every place of it.

use crate::protocol::bytes_text;

/// A request for every beginning of the text, then for each of its bytes changed to each of the bytes given.
pub fn requests<'a>(text: &'a [u8], bytes: &'a [u8]) -> impl Iterator<Item = Vec<u8>> + 'a {
    let beginnings = (0..=text.len()).map(|length| text[..length].to_vec());
    let changed = (0..text.len()).flat_map(move |place| {
        let new = bytes.iter().filter(move |byte| **byte != text[place]);
        new.map(move |byte| with_byte(text, place, *byte))
    });
    beginnings.chain(changed).map(|spoiled| format!("table {}", bytes_text(&spoiled)).into_bytes())
}

fn with_byte(text: &[u8], place: usize, byte: u8) -> Vec<u8> {
    let mut changed = text.to_vec();
    changed[place] = byte;
    changed
}
