//! Packs put together from entries, well formed or with fields of any kind.

use crate::cases::programs::M4;
use crate::cases::Varied;

/// One entry as it stands in the contents: tag, cells, offset, length.
pub type Fields = [u16; 4];

/// A program with its tag and its cells.
pub type Rule = (u16, u16, Vec<u8>);

/// 01's example.
pub fn example() -> Vec<u8> {
    built(&[(7, 2, vec![0x85, 0x83, 0x15, 0x00])])
}

/// Three programs, the second of no bytes.
pub fn three() -> Vec<Rule> {
    vec![
        (0, 1, M4.to_vec()),
        (1, 1_024, vec![]),
        (0x0A00, 0, vec![0x00]),
    ]
}

/// A few varied programs.
pub(super) fn varied_rules(varied: &mut Varied) -> Vec<Rule> {
    let mut rules = Vec::new();
    let mut tag = varied.below(300);
    for _ in 0..varied.below(6) {
        let length = varied.below(9);
        let body = varied.bytes(length);
        rules.push((tag as u16, varied.below(1_025) as u16, body));
        tag += 1 + varied.below(9_000);
    }
    rules
}

/// A well-formed pack.
pub fn built(rules: &[Rule]) -> Vec<u8> {
    let bodies: Vec<&[u8]> = rules.iter().map(|(_, _, body)| &body[..]).collect();
    raw(&fields(rules), &bodies.concat())
}

/// The contents of a well-formed pack.
pub fn fields(rules: &[Rule]) -> Vec<Fields> {
    let mut offset = 2 + 8 * rules.len();
    let mut fields = Vec::new();
    for (tag, cells, body) in rules {
        fields.push([*tag, *cells, offset as u16, body.len() as u16]);
        offset += body.len();
    }
    fields
}

/// A pack of entries as they are given, with these bytes behind them.
pub fn raw(fields: &[Fields], bodies: &[u8]) -> Vec<u8> {
    [contents(fields.len() as u16, fields), bodies.to_vec()].concat()
}

/// Contents with any count.
pub fn contents(count: u16, fields: &[Fields]) -> Vec<u8> {
    let mut bytes = count.to_le_bytes().to_vec();
    bytes.extend(fields.concat().iter().flat_map(|field| field.to_le_bytes()));
    bytes
}

#[cfg(test)]
mod tests {
    use super::*;
    use crate::pack::write;

    #[test]
    fn as_the_writer_writes_it() {
        let mut room = [0; 64];
        let length = write(
            &[0, 1, 0x0A00],
            &[1, 1_024, 0],
            &[11, 0, 1],
            &three_bodies(),
            &mut room,
        );
        assert_eq!(room[..length.unwrap_or_default()], built(&three()));
    }

    fn three_bodies() -> Vec<u8> {
        three().into_iter().flat_map(|(_, _, body)| body).collect()
    }
}
