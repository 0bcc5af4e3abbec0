//! Admissions by hand: 01's example cut everywhere, each refusal, the order of refusals,
//! and what comes after the close.

use super::*;

/// 01's example.
const EXAMPLE: [u8; 14] = [
    0x01, 0x00, 0x07, 0x00, 0x02, 0x00, 0x0A, 0x00, 0x04, 0x00, 0x85, 0x83, 0x15, 0x00,
];

/// What a close answers after these chunks.
fn closed(chunks: &[&[u8]]) -> Closed {
    let mut admission = Admission::default();
    for chunk in chunks {
        assert_eq!(admission.chunk(chunk), Ok(()));
        assert_eq!(admission.answer(), None);
    }
    let closed = admission.close();
    assert_eq!(admission.answer(), Some(&closed));
    closed
}

#[test]
fn the_example_cut_everywhere() {
    let good = Ok(vec![(7, Verdict::Accepted)]);
    for first in 0..=EXAMPLE.len() {
        for second in first..=EXAMPLE.len() {
            let (before, behind) = EXAMPLE.split_at(second);
            let (before, between) = before.split_at(first);
            assert_eq!(closed(&[before, between, behind]), good);
        }
    }
    let apart: Vec<&[u8]> = EXAMPLE.chunks(1).collect();
    assert_eq!(closed(&apart), good);
    let nothing_between: Vec<&[u8]> = apart.iter().flat_map(|byte| [&[], *byte]).collect();
    assert_eq!(closed(&nothing_between), good);
}

#[test]
fn nothing_at_all() {
    assert_eq!(closed(&[]), Err(30));
    assert_eq!(closed(&[&[], &[]]), Err(30));
    assert_eq!(closed(&[&[0], &[0]]), Ok(vec![]));
}

/// A program of no bytes has its verdict, wherever it stands.
#[test]
fn empty_programs() {
    let empty = |tag| (tag, Verdict::RefusedAt(1, 0));
    let one = [1, 0, 7, 0, 0, 0, 10, 0, 0, 0];
    assert_eq!(closed(&[&one]), Ok(vec![empty(7)]));
    assert_eq!(closed(&[&one[..9], &one[9..]]), Ok(vec![empty(7)]));
    let three: [u16; 13] = [3, 1, 0, 26, 0, 2, 0, 26, 1, 3, 0, 27, 0];
    let mut three: Vec<u8> = three.into_iter().flat_map(u16::to_le_bytes).collect();
    three.push(0x00);
    let expected = vec![empty(1), (2, Verdict::Accepted), empty(3)];
    assert_eq!(closed(&[&three[..26], &three[26..]]), Ok(expected));
}

/// A refused pack has no verdicts, though its program was there.
#[test]
fn too_few_and_too_many() {
    assert_eq!(closed(&[&EXAMPLE[..13]]), Err(34));
    assert_eq!(closed(&[&EXAMPLE, &[0]]), Err(34));
    assert_eq!(closed(&[&EXAMPLE, &[], &EXAMPLE]), Err(34));
}

/// Bad contents are only told at the close, and by then 31 comes first.
#[test]
fn size_comes_first() {
    let (most, over) = (vec![0; 24_576], vec![0; 24_577]);
    assert_eq!(closed(&[&most]), Err(34));
    assert_eq!(closed(&[&over]), Err(31));
    let [mut tags, mut entry, mut offset] = [[0; 18]; 3];
    for pack in [&mut tags, &mut entry, &mut offset] {
        pack[0] = 2;
        pack[6] = 18;
    }
    entry[5] = 0xFF;
    offset[6] = 19;
    for (contents, refusal) in [
        (&tags[..], 32),
        (&offset, 33),
        (&entry, 35),
        (&[65, 0], 30),
        (&[0xFF, 0xFF], 30),
    ] {
        assert_eq!(closed(&[contents]), Err(refusal));
        let rest = 24_576 - contents.len();
        assert_eq!(closed(&[contents, &most[..rest]]), Err(refusal));
        assert_eq!(closed(&[contents, &most[..rest], &[0]]), Err(31));
        assert_eq!(closed(&[contents, &vec![0; 100_000]]), Err(31));
    }
}

/// 37 changes nothing, after a good close and after one that refused.
#[test]
fn after_the_close() {
    for pack in [&EXAMPLE[..], &EXAMPLE[..13], &[]] {
        let mut admission = Admission::default();
        assert_eq!(admission.chunk(pack), Ok(()));
        let first = admission.close();
        for _ in 0..2 {
            assert_eq!(admission.chunk(&[0x00]), Err(37));
            assert_eq!(admission.chunk(&[]), Err(37));
            assert_eq!(admission.close(), Err(37));
            assert_eq!(admission.answer(), Some(&first));
        }
    }
}
