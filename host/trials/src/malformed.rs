//! Lines that are no cases, and those that are only copied.

use crate::source::Source;

/// What stands in no field of any kind: not hex, out of range, cut, or nothing.
const WRONG: [&[u8]; 12] = [
    b"",
    b"0A",
    b"abc",
    b"42949672961",
    b"-1",
    b"+5",
    b"0x10",
    b"--",
    b"running:",
    b"faulted:256",
    b"\xFF\x80",
    b"\t",
];

/// Spoils a line so that it is no case, or gives one that is only copied.
pub fn malformed(source: &mut Source, line: Vec<u8>) -> Vec<u8> {
    let mut fields: Vec<&[u8]> = line.split(|&byte| byte == b' ').collect();
    let place = source.below(fields.len());
    match source.below(8) {
        0 => {
            fields.remove(place);
        }
        1 => fields.insert(place, b"0"),
        2 => fields.push(b""),
        3 => fields[0] = b"deccode",
        4 => return copied(source),
        5 => return noise(source),
        _ => fields[place] = source.one_of(&WRONG),
    }
    fields.join(&b' ')
}

/// An empty line, or a remark.
fn copied(source: &mut Source) -> Vec<u8> {
    source
        .one_of(&[&b""[..], b"#", b"# run 00 - - 0 0 running 1"])
        .to_vec()
}

/// Any bytes but a line feed.
fn noise(source: &mut Source) -> Vec<u8> {
    let count = source.between(1, 60);
    let bytes = (0..count).map(|_| source.byte());
    bytes.filter(|&byte| byte != b'\n').collect()
}
