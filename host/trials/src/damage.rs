//! Damage: bytes altered, put in, taken out, cut off or grown.

use crate::source::Source;

/// Damages bytes in one place, sometimes in more.
pub fn damage(source: &mut Source, bytes: &mut Vec<u8>) {
    once(source, bytes);
    while source.one_in(4) {
        once(source, bytes);
    }
}

fn once(source: &mut Source, bytes: &mut Vec<u8>) {
    if bytes.is_empty() {
        bytes.push(source.byte());
        return;
    }
    let place = source.below(bytes.len());
    match source.below(8) {
        0 => bytes.insert(place, source.byte()),
        1 => {
            bytes.remove(place);
        }
        2 => bytes.truncate(place),
        3 => {
            let more = source.between(1, 4);
            bytes.extend(source.bytes(more));
        }
        4 => bytes[place] ^= 1 << source.below(8),
        5 => bytes[place] = bytes[place].wrapping_add(1),
        6 => bytes[place] = bytes[place].wrapping_sub(1),
        _ => bytes[place] = source.byte(),
    }
}
