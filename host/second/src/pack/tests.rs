//! Packs by hand: 01's example, each refusal, the order of refusals, and what halving
//! comes to, in good packs and in others.

use super::*;

/// 01's example.
const EXAMPLE: [u8; 14] = [
    0x01, 0x00, 0x07, 0x00, 0x02, 0x00, 0x0A, 0x00, 0x04, 0x00, 0x85, 0x83, 0x15, 0x00,
];

/// The example with the numbers at these places changed.
fn changed(changes: &[(usize, u16)]) -> Result<Vec<Entry>, u32> {
    let mut pack = EXAMPLE;
    for &(place, number) in changes {
        pack[place..place + 2].copy_from_slice(&number.to_le_bytes());
    }
    entries(&pack)
}

/// A pack of entries as they are given, and so many bytes of bodies.
fn raw(fields: &[[u16; 4]], bodies: usize) -> Vec<u8> {
    let mut pack = (fields.len() as u16).to_le_bytes().to_vec();
    for field in fields.concat() {
        pack.extend(field.to_le_bytes());
    }
    pack.resize(pack.len() + bodies, 0);
    pack
}

#[test]
fn the_example() {
    let entry = Entry {
        tag: 7,
        cells: 2,
        offset: 10,
        length: 4,
    };
    assert_eq!(entries(&EXAMPLE), Ok(vec![entry]));
    assert_eq!(
        find(&EXAMPLE, 7),
        Ok((entry, &[0x85, 0x83, 0x15, 0x00][..]))
    );
    assert_eq!(find(&EXAMPLE, 8), Err(36));
    assert_eq!(lookup(&EXAMPLE, 7), find(&EXAMPLE, 7));
    assert_eq!(lookup(&EXAMPLE, 8), Err(36));
    let mut room = [0xEE; 16];
    let length = write(&[7], &[2], &[4], &[0x85, 0x83, 0x15, 0x00], &mut room);
    assert_eq!(length, Ok(14));
    assert_eq!(room[..14], EXAMPLE);
    assert_eq!(room[14..], [0xEE, 0xEE]);
}

#[test]
fn contents_cut_or_too_many() {
    assert_eq!(entries(&[]), Err(30));
    assert_eq!(entries(&[0]), Err(30));
    assert_eq!(entries(&[0, 0]), Ok(vec![]));
    for length in 2..10 {
        assert_eq!(entries(&EXAMPLE[..length]), Err(30));
    }
    for length in 10..14 {
        assert_eq!(entries(&EXAMPLE[..length]), Err(34));
    }
    assert_eq!(entries(&[65, 0]), Err(30));
    let of = |count: u16| {
        let offset = 2 + 8 * count;
        let fields: Vec<_> = (0..count).map(|tag| [tag, 0, offset, 0]).collect();
        entries(&raw(&fields, 0)).map(|entries| entries.len())
    };
    assert_eq!(of(64), Ok(64));
    assert_eq!(of(65), Err(30));
}

#[test]
fn each_field_at_its_limit() {
    assert!(changed(&[(2, 0)]).is_ok() && changed(&[(2, 65_535)]).is_ok());
    assert!(changed(&[(4, 1_024)]).is_ok());
    assert_eq!(changed(&[(4, 1_025)]), Err(35));
    assert_eq!(changed(&[(8, 16_384)]), Err(34));
    assert_eq!(changed(&[(8, 16_385)]), Err(35));
    assert_eq!(changed(&[(6, 9)]), Err(33));
    assert_eq!(changed(&[(6, 11)]), Err(33));
    assert_eq!(changed(&[(8, 3)]), Err(34));
}

#[test]
fn the_order_of_refusals() {
    // in one entry 32, 35, 33; entry after entry; 34 last
    assert_eq!(
        entries(&raw(&[[5, 0, 18, 0], [5, 1_025, 0, 0]], 1)),
        Err(32)
    );
    assert_eq!(
        entries(&raw(&[[5, 0, 18, 0], [6, 1_025, 0, 0]], 1)),
        Err(35)
    );
    assert_eq!(
        entries(&raw(&[[5, 0, 18, 0], [6, 1_024, 0, 0]], 1)),
        Err(33)
    );
    assert_eq!(entries(&raw(&[[5, 0, 0, 0], [5, 0, 18, 0]], 0)), Err(33));
    assert_eq!(
        entries(&raw(&[[5, 0, 18, 16_385], [5, 0, 18, 0]], 0)),
        Err(35)
    );
    assert_eq!(entries(&raw(&[[5, 0, 18, 0], [6, 0, 18, 0]], 1)), Err(34));
    // 31 before 30, 30 before the entries
    assert_eq!(entries(&vec![0xFF; 24_577]), Err(31));
    assert_eq!(entries(&vec![0xFF; 24_576]), Err(30));
    assert_eq!(find(&raw(&[[5, 0, 0, 0]], 0), 6), Err(33));
}

#[test]
fn sizes() {
    let of = |last: u16| {
        let fields = [[1, 0, 18, 16_384], [2, 0, 16_402, last]];
        entries(&raw(&fields, 16_384 + usize::from(last))).map(|entries| entries.len())
    };
    assert_eq!(of(8_174), Ok(2));
    assert_eq!(of(8_175), Err(31));
}

/// An offset is never compared modulo 65,536.
#[test]
fn offsets_past_sixteen_bits() {
    let fields = [
        [1, 0, 42, 16_384],
        [2, 0, 16_426, 16_384],
        [3, 0, 32_810, 16_384],
        [4, 0, 49_194, 16_384],
        [5, 0, 42, 0],
    ];
    assert_eq!(entries(&raw(&fields, 0)), Err(33));
    assert_eq!(entries(&raw(&fields[..4], 0)), Err(33));
    let four = [
        [1, 0, 34, 16_384],
        [2, 0, 16_418, 16_384],
        [3, 0, 32_802, 16_384],
    ];
    assert_eq!(
        entries(&raw(&[&four[..], &[[4, 0, 49_186, 16_384]]].concat(), 0)),
        Err(34)
    );
}

/// Packs of every count, each asked for every tag up to the second above its last: a
/// third of them are there.
#[test]
fn lookups_in_good_packs() {
    for count in 0..=64 {
        let offset = |place| 2 + 8 * count + 2 * place;
        let fields: Vec<_> = (0..count)
            .map(|place| [3 * place + 1, place, offset(place), 2])
            .collect();
        let pack = raw(&fields, 2 * usize::from(count));
        assert_eq!(entries(&pack).map(|all| all.len()), Ok(count.into()));
        for tag in (0..=3 * count).chain([65_535]) {
            let place = tag / 3;
            let found = lookup(&pack, tag).map(|(entry, program)| (entry, program.len()));
            let expected = Entry {
                tag,
                cells: place,
                offset: offset(place),
                length: 2,
            };
            let is_there = tag % 3 == 1 && place < count;
            let expected = if is_there { Ok((expected, 2)) } else { Err(36) };
            assert_eq!(found, expected, "{tag} of {count}");
            assert_eq!(lookup(&pack, tag), find(&pack, tag));
        }
    }
}

/// The first and the last of all tags.
#[test]
fn lookups_of_the_least_and_the_greatest_tag() {
    let pack = raw(&[[0, 0, 18, 0], [65_535, 0, 18, 0]], 0);
    assert!(lookup(&pack, 0).is_ok() && lookup(&pack, 65_535).is_ok());
    for tag in [1, 32_767, 32_768, 65_534] {
        assert_eq!(lookup(&pack, tag), Err(36));
    }
}

/// The place of the entry with a tag that halving comes to, where the contents have
/// these tags; the entries have no program.
fn place_of(tag: u16, tags: &[u16]) -> Option<u16> {
    let entry = |place: usize| [tags[place], place as u16, 2, 0];
    let fields: Vec<_> = (0..tags.len()).map(entry).collect();
    match lookup(&raw(&fields, 0), tag) {
        Ok((entry, _)) => Some(entry.cells),
        Err(refusal) => {
            assert_eq!(refusal, 36);
            None
        }
    }
}

/// Tags in any order. Of one none is looked at before it is come to. Of two the second
/// is looked at alone; of three the third, which leads to the second, then the one behind
/// where it is; of four the third, which leads to itself, then the one behind where it
/// is; of five the fifth, which leads to the second, then two further, then one.
#[test]
fn lookups_where_the_tags_do_not_ascend() {
    assert_eq!(place_of(7, &[7]), Some(0));
    assert_eq!(place_of(7, &[8]), None);
    assert_eq!(place_of(7, &[6]), None);
    assert_eq!(place_of(7, &[7, 7]), Some(1));
    assert_eq!(place_of(7, &[7, 6]), None);
    assert_eq!(place_of(7, &[7, 8]), Some(0));
    assert_eq!(place_of(7, &[9, 7]), Some(1));
    assert_eq!(place_of(7, &[7, 9, 7]), Some(2));
    assert_eq!(place_of(7, &[7, 9, 5]), None);
    assert_eq!(place_of(7, &[7, 9, 9]), Some(0));
    assert_eq!(place_of(7, &[9, 7, 9]), Some(1));
    assert_eq!(place_of(7, &[9, 7, 5]), None);
    assert_eq!(place_of(7, &[9, 5, 7]), Some(2));
    assert_eq!(place_of(7, &[7, 5, 9]), None);
    assert_eq!(place_of(7, &[9, 9, 7]), Some(2));
    assert_eq!(place_of(7, &[9, 7, 9, 9]), Some(1));
    assert_eq!(place_of(7, &[9, 9, 7, 9]), Some(2));
    assert_eq!(place_of(7, &[9, 9, 5, 7]), Some(3));
    assert_eq!(place_of(7, &[9, 7, 5, 9]), None);
    assert_eq!(place_of(7, &[7, 5, 7, 7, 7]), Some(4));
    assert_eq!(place_of(7, &[9, 5, 9, 9, 7]), None);
    assert_eq!(place_of(7, &[9, 5, 7, 9, 9]), Some(2));
    assert_eq!(place_of(7, &[9, 5, 9, 7, 9]), None);
    assert_eq!(place_of(7, &[9, 7, 9, 9, 7]), Some(1));
    assert_eq!(place_of(7, &[9, 9, 9, 7, 9]), None);
    assert_eq!(place_of(7, &[9, 9, 9, 7, 7]), Some(4));
    assert_eq!(place_of(7, &[9, 9, 9, 7, 5]), None);
    assert_eq!(place_of(7, &[9, 9, 7, 9, 9]), Some(2));
    assert_eq!(place_of(7, &[9, 9, 7, 9, 5]), Some(2));
    assert_eq!(place_of(7, &[9, 9, 5, 7, 9]), Some(3));
}

/// 64 tags that fall: the greatest leads to the last entry, the least to the first. 64
/// that are alike: to the last, or to the one before those that are above.
#[test]
fn lookups_among_64_tags_that_do_not_ascend() {
    let falling: Vec<u16> = (0..64).map(|place| 1_000 - place).collect();
    assert_eq!(place_of(1_000, &falling), None);
    assert_eq!(place_of(937, &falling), None);
    let mut alike = [7; 64];
    assert_eq!(place_of(7, &alike), Some(63));
    assert_eq!(place_of(6, &alike), None);
    alike[63] = 8;
    assert_eq!(place_of(7, &alike), Some(62));
    alike[32] = 8;
    assert_eq!(place_of(7, &alike), Some(31));
}

/// Of 40 entries the one numbered 32 is looked at first, and leads to number 8, which is
/// not looked at then: from there to 24, 32, 36, 38, 39; from 0 to 16, 24, 28, 30, 31.
#[test]
fn lookups_among_40_tags_that_do_not_ascend() {
    let mut alike = [7; 40];
    assert_eq!(place_of(7, &alike), Some(39));
    alike[8] = 8;
    assert_eq!(place_of(7, &alike), Some(39));
    alike[39] = 8;
    assert_eq!(place_of(7, &alike), Some(38));
    alike[32] = 8;
    assert_eq!(place_of(7, &alike), Some(31));
    let mut above = [8; 40];
    above[8] = 7;
    assert_eq!(place_of(7, &above), Some(8));
    above[32] = 6;
    assert_eq!(place_of(7, &above), Some(8));
    above[24] = 6;
    assert_eq!(place_of(7, &above), None);
    above[36] = 7;
    assert_eq!(place_of(7, &above), Some(36));
}

/// 31, 30, 36, 35, 34: each, its limits, and before which others it comes.
#[test]
fn lookups_refused() {
    let refused = |pack: &[u8], tag| lookup(pack, tag).err();
    assert_eq!(refused(&vec![0xFF; 24_577], 7), Some(31));
    assert_eq!(refused(&vec![0xFF; 24_576], 7), Some(30));
    assert_eq!(refused(&[], 7), Some(30));
    assert_eq!(refused(&[0], 7), Some(30));
    assert_eq!(refused(&[65, 0], 7), Some(30));
    assert_eq!(refused(&[0, 1], 7), Some(30));
    assert_eq!(refused(&[0, 0], 7), Some(36));
    assert_eq!(refused(&[0, 0, 7, 0], 0), Some(36));
    for length in 2..10 {
        assert_eq!(refused(&EXAMPLE[..length], 7), Some(30));
    }
    for length in 10..14 {
        assert_eq!(refused(&EXAMPLE[..length], 7), Some(34));
        assert_eq!(refused(&EXAMPLE[..length], 8), Some(36));
    }
    let of = |cells, offset, length| raw(&[[7, cells, offset, length]], 16_400);
    for (cells, offset, length, refusal) in [
        (1_024, 0, 16_384, None),
        (1_025, 0, 0, Some(35)),
        (0, 0, 16_385, Some(35)),
        (0, 26, 16_384, None),
        (0, 27, 16_384, Some(34)),
        (0, 16_410, 0, None),
        (0, 16_411, 0, Some(34)),
        (0, 65_535, 16_384, Some(34)),
        (0, 65_535, 1, Some(34)),
        (1_025, 65_535, 16_384, Some(35)),
        (65_535, 65_535, 65_535, Some(35)),
    ] {
        let pack = of(cells, offset, length);
        assert_eq!(refused(&pack, 7), refusal, "{cells} {offset} {length}");
        assert_eq!(refused(&pack, 6), Some(36));
    }
}

/// What is wrong elsewhere is not seen: an entry comes where `find` refuses.
#[test]
fn lookups_beside_what_is_wrong() {
    let fields = [[5, 1_025, 9, 16_385], [6, 3, 0, 4], [6, 0, 0, 0]];
    let pack = raw(&fields, 3);
    assert_eq!(find(&pack, 6), Err(35));
    let found = lookup(&pack, 6).map(|(entry, program)| (entry.cells, program.to_vec()));
    assert_eq!(found, Ok((0, vec![])));
    let pack = raw(&[fields[0], fields[1], [7, 0, 0, 0]], 3);
    let found = lookup(&pack, 6).map(|(entry, program)| (entry.cells, program.to_vec()));
    assert_eq!(found, Ok((3, vec![3, 0, 5, 0])));
    assert_eq!(lookup(&pack, 5), Err(35));
}

/// The writer's refusals in their order; the room is untouched.
#[test]
fn the_writer_s_refusals() {
    let refused = |tags: &[u16], cells: &[u16], lengths: &[u16], bodies: usize, room: usize| {
        let mut room = vec![0xEE; room];
        let answer = write(tags, cells, lengths, &vec![1; bodies], &mut room);
        assert!(room.iter().all(|&byte| byte == 0xEE));
        answer.err()
    };
    assert_eq!(refused(&[1], &[], &[2], 2, 99), Some(30));
    assert_eq!(refused(&[1], &[1], &[], 0, 99), Some(30));
    assert_eq!(refused(&[], &[1], &[], 0, 99), Some(30));
    assert_eq!(refused(&[0; 65], &[0; 65], &[0; 65], 0, 999), Some(30));
    assert_eq!(refused(&[1, 1], &[0, 9_999], &[0, 0], 1, 0), Some(32));
    assert_eq!(refused(&[1, 1], &[9_999, 0], &[0, 0], 1, 0), Some(35));
    assert_eq!(refused(&[1, 2], &[0, 0], &[0, 16_385], 1, 0), Some(35));
    assert_eq!(refused(&[1, 2], &[0, 0], &[3, 4], 6, 0), Some(34));
    assert_eq!(
        refused(&[1, 2, 3, 4], &[0; 4], &[16_384; 4], 0, 99),
        Some(34)
    );
    assert_eq!(
        refused(&[1, 2], &[0, 0], &[16_384, 8_175], 24_559, 0),
        Some(31)
    );
    assert_eq!(
        refused(&[1, 2], &[0, 0], &[16_384, 8_174], 24_558, 24_575),
        Some(25)
    );
    assert_eq!(refused(&[], &[], &[], 0, 1), Some(25));
}
