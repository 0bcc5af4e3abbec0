//! Every refusal of every function, by its own number, and what it leaves untouched.

use khalixoshi::pack::{self, Checked, Entry, Rule};
use khalixoshi::{
    decode, depths, encode, encoded, list, listing, report, shape, verdicts, verify, Error, Fault,
    Instruction, Reader, Refused, Shape, State, Status, CELLS_MAX, DATA_MAX, ENTRIES_MAX,
    INSTRUCTION_MAX, LIST_MAX, PACK_MAX, PROGRAM_MAX, REPORT_MAX, UNMET,
};

const M1: [u8; 4] = [0x85, 0x83, 0x15, 0x00];

/// A pack of one rule, M1 under the tag 7.
const PACK: [u8; 14] = [1, 0, 7, 0, 2, 0, 10, 0, 4, 0, 0x85, 0x83, 0x15, 0x00];

#[test]
fn decode_and_reader() {
    let cases: [(&[u8], Error); 5] = [
        (&[0; PROGRAM_MAX + 1], Error::ProgramSize),
        (&[], Error::End),
        (&[0x5B], Error::Illegal),
        (&[0x31, 0x10], Error::Illegal),
        (&[0x31], Error::Cut),
    ];
    for (program, error) in cases {
        assert_eq!(decode(program, 0), Err(error));
        let mut reader = Reader::new(program);
        assert_eq!((reader.read(), reader.address()), (Err(error), 0));
        assert_eq!((reader.read(), reader.address()), (Err(error), 0));
    }
    assert_eq!(decode(&M1, usize::MAX), Err(Error::End));
}

/// The fields are told apart, and a first byte has a row exactly where the decoder reads
/// an instruction that begins with it, of that length.
#[test]
fn rows_of_first_bytes() {
    let row = Shape {
        length: 3,
        taken: 2,
        pushed: 1,
    };
    assert_eq!(shape(0x53), Some(row));
    for first in 0..=255 {
        let mut program = [0; INSTRUCTION_MAX];
        program[0] = first;
        let length = decode(&program, 0).map(|read| read.length);
        let row = shape(first).map(|row| row.length);
        assert_eq!(row.ok_or(Error::Illegal), length, "{first:02X}");
    }
}

#[test]
fn a_reader_as_an_iterator() {
    let addresses = |program: &[u8]| -> Vec<Result<usize, Error>> {
        let read = Reader::new(program).map(|read| read.map(|(address, _)| address));
        read.take(10).collect()
    };
    assert_eq!(addresses(&M1), [Ok(0), Ok(1), Ok(2), Ok(3)]);
    assert_eq!(addresses(&[]), []);
    assert_eq!(addresses(&[0x3C, 0, 0x41, 0]), [Ok(0), Err(Error::Cut)]);
    let long = [0; PROGRAM_MAX + 1];
    assert_eq!(addresses(&long), [Err(Error::ProgramSize)]);
}

#[test]
fn encode_in_either_way() {
    let halt = Instruction::default();
    let push = Instruction {
        code: 0xC0,
        count: 4,
        flags: 0b1111,
        values: [1, 2, 3, 0x0405],
        ..halt
    };
    assert_eq!(encoded(&push), Ok(vec![0xFF, 1, 0, 2, 0, 3, 0, 5, 4]));
    let mut room = [0xAA; 8];
    assert_eq!(encode(&push, &mut room), Err(Error::Room));
    let unwritable = [
        Instruction { code: 0x5B, ..halt },
        Instruction { code: 0x81, ..halt },
        Instruction { number: 1, ..halt },
        Instruction { count: 1, ..halt },
        Instruction { flags: 1, ..halt },
        Instruction {
            values: [0, 0, 0, 1],
            ..halt
        },
        Instruction {
            count: 0,
            flags: 0,
            values: [0; 4],
            ..push
        },
        Instruction { count: 5, ..push },
        Instruction {
            flags: 0b0111,
            ..push
        },
        Instruction {
            code: 0x25,
            number: 256,
            ..halt
        },
    ];
    for instruction in unwritable {
        assert_eq!(encode(&instruction, &mut room), Err(Error::Unwritable));
        assert_eq!(encoded(&instruction), Err(Error::Unwritable));
    }
    assert_eq!(room, [0xAA; 8]);
}

#[test]
fn run_and_step() {
    let running = State::fresh();
    let deep = State {
        depth: 3,
        ..running
    };
    let refused = |state: State, program: &[u8], data: usize, cells: usize| {
        let (mut data, mut cells) = (vec![7; data], vec![7; cells]);
        let run = state.run(program, &mut data, &mut cells, 5);
        let step = state.step(program, &mut data, &mut cells);
        assert!(data.iter().all(|byte| *byte == 7) && cells.iter().all(|cell| *cell == 7));
        assert_eq!(run, step);
        run.unwrap_err()
    };
    let over = [0; PROGRAM_MAX + 1];
    assert_eq!(refused(running, &over, 0, 0), Error::ProgramSize);
    assert_eq!(refused(running, &M1, DATA_MAX + 1, 0), Error::DataSize);
    assert_eq!(refused(running, &M1, 0, CELLS_MAX + 1), Error::CellsSize);
    assert_eq!(refused(deep, &M1, 0, 2), Error::Deep);
}

#[test]
fn every_fault_of_a_run() {
    let fault = |program: &[u8]| {
        let ran = State::fresh().run(program, &mut [0], &mut [0; 3], 100);
        ran.map(|ran| (ran.state.status, ran.state.address, ran.steps))
    };
    let faulted = |number, address, steps| Ok((Status::Faulted(Fault(number)), address, steps));
    assert_eq!(fault(&[]), faulted(1, 0, 0));
    assert_eq!(fault(&[0x80, 0x5B]), faulted(2, 1, 1));
    assert_eq!(fault(&[0x80, 0x3C]), faulted(3, 1, 1));
    assert_eq!(fault(&[0x01]), faulted(4, 0, 0));
    assert_eq!(fault(&[0xC3, 1, 2, 3, 4]), faulted(5, 0, 0));
    assert_eq!(fault(&[0x34, 0x00]), faulted(6, 0, 0));
    assert_eq!(fault(&[0x81, 0x84, 0x80, 0x03]), faulted(7, 3, 3));
    assert_eq!(fault(&[0x3F, 0x01]), faulted(8, 0, 0));
}

/// A stopped state comes back as it was, whatever its numbers.
#[test]
fn a_state_is_kept_whole() {
    let statuses = [
        Status::Halted,
        Status::Faulted(Fault(0)),
        Status::Faulted(Fault(6)),
        Status::Faulted(Fault(usize::MAX)),
    ];
    for status in statuses {
        let state = State {
            address: 70_000,
            depth: 1,
            status,
        };
        let ran = state.run(&M1, &mut [], &mut [9, 9], 10).unwrap();
        assert_eq!((ran.state, ran.steps), (state, 0));
    }
    let far = State {
        address: usize::MAX,
        ..State::fresh()
    };
    let ran = far.step(&M1, &mut [], &mut []).unwrap();
    assert_eq!(ran.state.address, usize::MAX);
    assert_eq!(ran.state.status, Status::Faulted(Fault(1)));
}

#[test]
fn verify_with_and_without_a_place() {
    let refused = |program: &[u8], cells, map: &mut [u16]| {
        let Refused { error, at } = verify(program, cells, map).unwrap_err();
        (error, at)
    };
    let over = [0; PROGRAM_MAX + 1];
    let mut map = [7; 5];
    assert_eq!(refused(&over, 0, &mut map), (Error::ProgramSize, None));
    assert_eq!(
        refused(&M1, CELLS_MAX + 1, &mut map[..4]),
        (Error::CellsSize, None)
    );
    assert_eq!(refused(&M1, 2, &mut map), (Error::MapSize, None));
    assert_eq!(map, [7; 5]);

    let walk: [(&[u8], Error, usize); 8] = [
        (&[], Error::End, 0),
        (&[0x80, 0xC8], Error::Illegal, 1),
        (&[0x80, 0x41], Error::Cut, 1),
        (&[0x80, 0x15], Error::Few, 1),
        (&[0x80, 0x80], Error::Full, 1),
        (&[0x80, 0x3F, 0x01], Error::Function, 1),
        (&[0x80, 0x06], Error::Unverifiable, 1),
        (&[0x80, 0x3C, 0x00], Error::TwoDepths, 1),
    ];
    for (program, error, at) in walk {
        let mut map = vec![7; program.len()];
        assert_eq!(refused(program, 1, &mut map), (error, Some(at)));
        assert!(map.iter().all(|cell| *cell == UNMET));
        assert_eq!(
            depths(program, 1),
            Err(Refused {
                error,
                at: Some(at)
            })
        );
    }
    let told = depths(&M1, 1_025).unwrap_err().to_string();
    assert_eq!(told, "refused 22: the stack is over 1,024 cells");
}

#[test]
fn list_in_either_way() {
    let over = [0; PROGRAM_MAX + 1];
    let mut room = [b'.'; 60];
    assert_eq!(list(&over, &mut room), Err(Error::ProgramSize));
    assert_eq!(listing(&over), Err(Error::ProgramSize));
    let whole = listing(&M1).unwrap();
    let short = whole.len() - 1;
    assert_eq!(list(&M1, &mut room[..short]), Err(Error::Room));
    assert_eq!(room, [b'.'; 60]);
    assert_eq!(list(&M1, &mut room), Ok(whole.len()));
    assert_eq!(&room[..whole.len()], whole.as_bytes());
    assert_eq!(listing(&[]), Ok(String::new()));
    let bytes = listing(&[0x5B; PROGRAM_MAX]).unwrap();
    assert_eq!(bytes.lines().count(), PROGRAM_MAX);
    assert!(bytes.ends_with("3FFF byte $5B\n"));
}

/// The longest listing fills its room: short pushes, 17 bytes each.
#[test]
fn the_longest_listing() {
    let pushes = [0x80; PROGRAM_MAX];
    let mut room = vec![b'.'; LIST_MAX];
    assert_eq!(list(&pushes, &mut room[1..]), Err(Error::Room));
    assert_eq!(list(&pushes, &mut room), Ok(LIST_MAX));
    assert!(room.ends_with(b"\n3FFF push-u8 $00\n"));
    assert_eq!(listing(&pushes).unwrap().as_bytes(), room);
}

/// The pack with another byte at a place.
fn altered(at: usize, byte: u8) -> Vec<u8> {
    let mut pack = PACK;
    pack[at] = byte;
    pack.to_vec()
}

/// Rules of one byte under these tags, whatever their order; their cells tell them apart.
fn tagged(tags: &[u16]) -> Vec<u8> {
    let rule = |place| Rule {
        tag: place,
        cells: place,
        body: &[0],
    };
    let rules: Vec<Rule> = (0..tags.len() as u16).map(rule).collect();
    let mut pack = pack::build(&rules).unwrap();
    for (place, tag) in tags.iter().enumerate() {
        pack[2 + 8 * place..][..2].copy_from_slice(&tag.to_le_bytes());
    }
    pack
}

#[test]
fn packs_read() {
    let cases = [
        (PACK[..9].to_vec(), Error::PackContents),
        (altered(0, 65), Error::PackContents),
        (vec![0; PACK_MAX + 1], Error::PackSize),
        (tagged(&[7, 7]), Error::PackTags),
        (altered(6, 11), Error::PackOffset),
        (PACK[..13].to_vec(), Error::PackEnd),
        (altered(5, 5), Error::PackEntry),
    ];
    for (bytes, error) in cases {
        assert_eq!(pack::check(&bytes), Err(error));
        assert_eq!(pack::entries(&bytes), Err(error));
        assert_eq!(pack::entry(&bytes, 0), Err(error));
        assert_eq!(pack::find(&bytes, 7), Err(error));
        assert_eq!(Checked::new(&bytes), Err(error));
        assert_eq!(
            verdicts(&bytes),
            format!("pack refused {}\n", error.number())
        );
    }
    assert_eq!(pack::find(&PACK, 8), Err(Error::PackAbsent));
    assert_eq!(pack::entry(&PACK, usize::MAX), Ok(None));
}

/// Of bytes that are no pack: each refusal, and entries that no check stands behind.
#[test]
fn lookups_without_a_check() {
    let refused = [
        (vec![0; PACK_MAX + 1], Error::PackSize),
        (PACK[..9].to_vec(), Error::PackContents),
        (altered(0, 65), Error::PackContents),
        (altered(5, 5), Error::PackEntry),
        (altered(9, 65), Error::PackEntry),
        (altered(6, 11), Error::PackEnd),
        (PACK[..13].to_vec(), Error::PackEnd),
        (tagged(&[7, 6]), Error::PackAbsent),
    ];
    for (bytes, error) in refused {
        assert_eq!(pack::lookup_unchecked(&bytes, 7), Err(error));
    }
    let offset = |bytes: &[u8]| pack::lookup_unchecked(bytes, 7).map(|entry| entry.offset);
    assert_eq!(offset(&tagged(&[7, 7])), Ok(19));
    assert_eq!(offset(&tagged(&[9, 7])), Ok(19));
    assert_eq!(offset(&altered(6, 0)), Ok(0));
    assert_eq!(offset(&[&PACK[..], &[0]].concat()), Ok(10));
}

/// Packs of every size: a tag is looked up as it is found, there or between two.
#[test]
fn lookups_in_checked_packs() {
    for count in 0..=ENTRIES_MAX as u16 {
        let tags: Vec<u16> = (0..count).map(|place| 3 * place + 1).collect();
        let bytes = tagged(&tags);
        let pack = Checked::new(&bytes).unwrap();
        assert_eq!(pack.count(), tags.len());
        for tag in (0..=3 * count + 1).chain([u16::MAX]) {
            let found = pack::find(&bytes, tag);
            assert_eq!(found.is_ok(), tags.contains(&tag));
            assert_eq!(pack.lookup(tag), found, "{tag} of {count}");
            let body = pack.rule(tag).map(|rule| (rule.cells, rule.body));
            let expected = found.map(|entry| (entry.cells, pack::body(&bytes, &entry)));
            assert_eq!(body, expected, "{tag} of {count}");
        }
    }
}

/// An entry that is not the pack's own names no byte outside the pack.
#[test]
fn bodies_stay_inside_the_pack() {
    let entry = |offset, length| Entry {
        tag: 0,
        cells: 0,
        offset,
        length,
    };
    assert_eq!(pack::body(&PACK, &entry(12, 9)), [0x15, 0x00]);
    assert_eq!(pack::body(&PACK, &entry(14, 1)), []);
    assert_eq!(pack::body(&PACK, &entry(65_535, 65_535)), []);
}

#[test]
fn packs_written() {
    let mut room = [0xAA; 13];
    let mut write = |tags: &[u16], cells: &[u16], lengths: &[u16], bodies: &[u8]| {
        let answer = pack::write(tags, cells, lengths, bodies, &mut room);
        assert_eq!(room, [0xAA; 13]);
        answer
    };
    let many: Vec<u16> = (0..=ENTRIES_MAX as u16).collect();
    assert_eq!(write(&many, &many, &many, &[]), Err(Error::PackContents));
    assert_eq!(write(&[7], &[], &[0], &[]), Err(Error::PackContents));
    assert_eq!(write(&[7], &[2], &[], &[]), Err(Error::PackContents));
    assert_eq!(write(&[7, 7], &[0, 0], &[0, 0], &[]), Err(Error::PackTags));
    assert_eq!(write(&[7], &[1_025], &[0], &[]), Err(Error::PackEntry));
    assert_eq!(write(&[7], &[2], &[4], &M1[..3]), Err(Error::PackEnd));
    let half = [0; 12_289];
    let both = [half, half].concat();
    assert_eq!(
        write(&[1, 2], &[0, 0], &[12_289; 2], &both),
        Err(Error::PackSize)
    );
    assert_eq!(write(&[7], &[2], &[4], &M1), Err(Error::Room));
}

#[test]
fn packs_built() {
    fn rule(tag: u16, body: &[u8]) -> Rule<'_> {
        Rule {
            tag,
            cells: 2,
            body,
        }
    }
    assert_eq!(pack::build(&[rule(7, &M1)]), Ok(PACK.to_vec()));
    assert_eq!(pack::build(&[]), Ok(vec![0, 0]));
    for length in [PROGRAM_MAX + 1, 65_536, 70_000] {
        let body = vec![0; length];
        assert_eq!(pack::build(&[rule(7, &body)]), Err(Error::PackEntry));
    }
    let body = [0; 12_280];
    let rules = [rule(1, &body), rule(2, &body[1..])];
    assert_eq!(pack::build(&rules), Err(Error::PackSize));
    let rules = [rule(1, &body[1..]), rule(2, &body[1..])];
    assert_eq!(pack::build(&rules).map(|pack| pack.len()), Ok(PACK_MAX));
}

#[test]
fn reports() {
    let mut map = [7; PROGRAM_MAX];
    let mut room = [b'.'; REPORT_MAX];
    assert_eq!(report(&PACK, &mut map[1..], &mut room), Err(Error::MapSize));
    assert_eq!(report(&PACK, &mut map, &mut room[..13]), Err(Error::Room));
    assert_eq!(room, [b'.'; REPORT_MAX]);
    assert_eq!(report(&PACK, &mut map, &mut room), Ok(14));
    assert_eq!(&room[..15], b"0007 accepted\n.");
    assert_eq!(verdicts(&[0, 0]), "");
}

/// The longest report fills its room: 64 rules, each refused by a number of two digits.
#[test]
fn the_longest_report() {
    let body = [0x81, 0x3C, 0x00];
    let rules: Vec<Rule> = (0..ENTRIES_MAX as u16)
        .map(|tag| Rule {
            tag,
            cells: 1,
            body: &body,
        })
        .collect();
    let pack = pack::build(&rules).unwrap();
    assert_eq!(verdicts(&pack).len(), REPORT_MAX);
    let (mut map, mut room) = ([0; PROGRAM_MAX], [b'.'; REPORT_MAX]);
    let shorter = report(&pack, &mut map, &mut room[1..]);
    assert_eq!(shorter, Err(Error::Room));
    assert_eq!(report(&pack, &mut map, &mut room), Ok(REPORT_MAX));
    assert!(room.ends_with(b"\n003F refused 10 at 0001\n"));
}
