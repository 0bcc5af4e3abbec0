//! Packs admitted in chunks: wherever they are cut, the answers are those of the whole pack;
//! and every refusal by its own number.

use std::io::{ErrorKind, Write};
use std::thread;

use khalixoshi::pack::{self, Rule};
use khalixoshi::{
    depths, verdicts, Admission, Answer, Error, Ruling, ENTRIES_MAX, PACK_MAX, PROGRAM_MAX,
};

/// A pack of one rule, M1 under the tag 7.
const PACK: [u8; 14] = [1, 0, 7, 0, 2, 0, 10, 0, 4, 0, 0x85, 0x83, 0x15, 0x00];

/// Ten rules, three accepted, seven refused.
const NIGHTLY: &[u8] = include_bytes!("../../../examples/nightly.pack");

/// The pack with another byte at a place.
fn altered(at: usize, byte: u8) -> Vec<u8> {
    let mut pack = PACK;
    pack[at] = byte;
    pack.to_vec()
}

/// Rules of so many bytes each, all halts, with the tags 1, 2, 3, ..
fn halts(lengths: &[usize]) -> Vec<u8> {
    let zeros = [0; PROGRAM_MAX];
    let rule = |(place, length): (usize, &usize)| Rule {
        tag: place as u16 + 1,
        cells: 0,
        body: &zeros[..*length],
    };
    let rules: Vec<Rule> = lengths.iter().enumerate().map(rule).collect();
    pack::build(&rules).unwrap()
}

/// Two rules with the tag 1.
fn equal_tags() -> Vec<u8> {
    let mut pack = halts(&[1, 1]);
    pack[10] = 1;
    pack
}

/// Packs of each answer, and the answer.
fn packs() -> Vec<(Vec<u8>, Result<usize, Error>)> {
    vec![
        (vec![0, 0], Ok(0)),
        (PACK.to_vec(), Ok(1)),
        (altered(4, 1), Ok(1)),
        (halts(&[1, 1]), Ok(2)),
        (halts(&[0, 2, 0, 0, 1, 0]), Ok(6)),
        (halts(&[1; ENTRIES_MAX]), Ok(ENTRIES_MAX)),
        (vec![], Err(Error::PackContents)),
        (vec![0], Err(Error::PackContents)),
        (PACK[..9].to_vec(), Err(Error::PackContents)),
        (altered(0, 65), Err(Error::PackContents)),
        (altered(1, 1), Err(Error::PackContents)),
        (equal_tags(), Err(Error::PackTags)),
        (altered(5, 5), Err(Error::PackEntry)),
        (altered(9, 65), Err(Error::PackEntry)),
        (altered(6, 11), Err(Error::PackOffset)),
        (PACK[..10].to_vec(), Err(Error::PackEnd)),
        (PACK[..13].to_vec(), Err(Error::PackEnd)),
        ([&PACK[..], &[0]].concat(), Err(Error::PackEnd)),
        (vec![0, 0, 0], Err(Error::PackEnd)),
    ]
}

/// An admission that was fed these chunks.
fn fed<'a>(chunks: impl IntoIterator<Item = &'a [u8]>) -> Admission {
    let mut admission = Admission::new();
    for chunk in chunks {
        admission.feed(chunk).unwrap();
    }
    admission
}

/// What stands in the lines of a pack's verdicts, once it is closed.
fn lines(admission: &Admission) -> String {
    match (admission.answer(), admission.verdicts()) {
        (Answer::Closed(Ok(_)), Some(all)) => all.map(|one| format!("{one}\n")).collect(),
        (Answer::Closed(Err(error)), None) => format!("pack refused {}\n", error.number()),
        (answer, all) => panic!("{answer:?}, final verdicts: {}", all.is_some()),
    }
}

/// Closes it and holds it to the answers of the whole pack.
fn closes_as_the_whole(mut admission: Admission, pack: &[u8]) {
    assert_eq!(admission.answer(), Answer::Open);
    assert!(admission.verdicts().is_none());
    let answer = admission.close();
    assert_eq!(answer, pack::check(pack), "{pack:02X?}");
    assert_eq!(admission.answer(), Answer::Closed(answer));
    assert_eq!(lines(&admission), verdicts(pack), "{pack:02X?}");
    assert_eq!(admission.verdicts().map(Iterator::count), answer.ok());
    assert_eq!(admission.provisional().count(), 0);
    assert_eq!(admission.lost(), answer.err());
}

#[test]
fn cut_anywhere() {
    for (pack, answer) in packs() {
        assert_eq!(pack::check(&pack), answer, "{pack:02X?}");
        for at in 0..=pack.len() {
            let (before, after) = pack.split_at(at);
            closes_as_the_whole(fed([before, &[], after]), &pack);
        }
        for size in 1..=pack.len() {
            closes_as_the_whole(fed(pack.chunks(size)), &pack);
        }
    }
}

#[test]
fn ten_rules_cut_anywhere() {
    for at in 0..NIGHTLY.len() {
        let (before, after) = NIGHTLY.split_at(at);
        closes_as_the_whole(fed([before, after]), NIGHTLY);
        closes_as_the_whole(fed([before]), before);
    }
    for size in 1..=NIGHTLY.len() {
        closes_as_the_whole(fed(NIGHTLY.chunks(size)), NIGHTLY);
    }
}

/// Large packs in one chunk, and in chunks that end at no body's end.
#[test]
fn large_packs() {
    let half = (PACK_MAX - 18) / 2;
    let largest = halts(&[half, half]);
    assert_eq!(largest.len(), PACK_MAX);
    let over = [&largest[..], &[0]].concat();
    let far_over = [&largest[..], &largest].concat();
    for pack in [halts(&[PROGRAM_MAX]), largest, over, far_over] {
        for size in [1, 64, 1_460, PACK_MAX, pack.len()] {
            closes_as_the_whole(fed(pack.chunks(size)), &pack);
        }
    }
}

/// Too many bytes are told before all else that is wrong, whenever it was found.
#[test]
fn over_size_comes_first() {
    for (pack, _) in packs() {
        let over = [&pack[..], &[0; PACK_MAX + 1]].concat();
        closes_as_the_whole(fed(over.chunks(1_000)), &over);
        let most = &over[..PACK_MAX];
        closes_as_the_whole(fed(most.chunks(1_000)), most);
        let mut admission = fed(over[..PACK_MAX + 1].chunks(1_000));
        assert_eq!(admission.close(), Err(Error::PackSize));
    }
}

/// A program has its verdict with its last byte, one of no bytes with what is before it.
#[test]
fn a_verdict_with_the_last_byte() {
    for pack in [NIGHTLY.to_vec(), halts(&[0, 2, 0, 0, 1, 0]), halts(&[0, 0])] {
        let entries = pack::entries(&pack).unwrap();
        let contents = 2 + 8 * entries.len();
        let ruled = |entry: &pack::Entry| Ruling {
            tag: entry.tag,
            verdict: depths(pack::body(&pack, entry), entry.cells.into()).map(|_| ()),
        };
        let mut admission = Admission::new();
        for length in 1..=pack.len() {
            let ends = |entry: &&pack::Entry| {
                length >= contents
                    && usize::from(entry.offset) + usize::from(entry.length) <= length
            };
            let expected: Vec<Ruling> = entries.iter().take_while(ends).map(ruled).collect();
            let known = admission.feed(&pack[length - 1..length]);
            assert_eq!(known, Ok(expected.len()));
            assert!(admission.provisional().eq(expected), "after {length} bytes");
            assert!(admission.verdicts().is_none(), "after {length} bytes");
            assert_eq!((admission.answer(), admission.lost()), (Answer::Open, None));
        }
    }
}

/// After the close, good or not, a chunk and a close are refused, and nothing changes.
#[test]
fn after_the_close() {
    for (pack, answer) in packs() {
        let mut admission = fed([&pack[..]]);
        assert_eq!(admission.close(), answer);
        let (told, lost) = (lines(&admission), admission.lost());
        for chunk in [&[][..], &[0], &PACK, &[0; PACK_MAX + 1]] {
            assert_eq!(admission.feed(chunk), Err(Error::AdmissionClosed));
            assert_eq!(admission.close(), Err(Error::AdmissionClosed));
            assert_eq!(admission.answer(), Answer::Closed(answer));
            assert_eq!((lines(&admission), admission.lost()), (told.clone(), lost));
            assert_eq!(admission.provisional().count(), 0);
        }
    }
}

/// Those told so far are withdrawn by the close.
#[test]
fn verdicts_are_withdrawn() {
    let cut = &NIGHTLY[..NIGHTLY.len() - 1];
    let long = [NIGHTLY, &[0]].concat();
    let over = [NIGHTLY, &[0; PACK_MAX]].concat();
    let withdrawn = [
        (cut, 9, Error::PackEnd),
        (&long[..], 10, Error::PackEnd),
        (&over[..], 10, Error::PackSize),
    ];
    for (pack, told, error) in withdrawn {
        let mut admission = fed(pack.chunks(NIGHTLY.len()));
        assert_eq!(admission.provisional().count(), told);
        assert_eq!(admission.close(), Err(error));
        assert_eq!(admission.provisional().count(), 0);
        assert!(admission.verdicts().is_none());
    }
}

/// A pack that cannot become good is told with the byte that shows it, and may still come to
/// be over size. One that is cut, or has bytes too many, is told at the close alone.
#[test]
fn lost_before_the_close() {
    let lost = [
        (altered(0, 65), 2, Error::PackContents),
        (altered(1, 1), 2, Error::PackContents),
        (equal_tags(), 18, Error::PackTags),
        (altered(5, 5), 10, Error::PackEntry),
        (altered(9, 65), 10, Error::PackEntry),
        (altered(6, 11), 10, Error::PackOffset),
    ];
    for (pack, shown, error) in lost {
        let mut admission = fed([&pack[..shown - 1]]);
        assert_eq!(admission.lost(), None, "{error}");
        admission.feed(&pack[shown - 1..]).unwrap();
        assert_eq!(admission.lost(), Some(error));
        admission.feed(&[0; PACK_MAX]).unwrap();
        assert_eq!(admission.lost(), Some(Error::PackSize));
    }
    for pack in [&PACK[..9], &PACK[..13], &[&PACK[..], &[0]].concat()] {
        assert_eq!(fed([pack]).lost(), None);
    }
}

/// Its memory is not on the stack, neither while it is made nor afterwards.
#[test]
fn on_a_small_stack() {
    let pack = halts(&[PROGRAM_MAX, 1]);
    let admitted = move || {
        let mut admission = Admission::new();
        admission.feed(&pack).unwrap();
        admission.close()
    };
    let small = thread::Builder::new().stack_size(65_536);
    assert_eq!(small.spawn(admitted).unwrap().join().unwrap(), Ok(2));
}

#[test]
fn written_to_as_a_file() {
    let mut admission = Admission::new();
    assert_eq!(admission.write(&PACK).unwrap(), PACK.len());
    admission.flush().unwrap();
    assert_eq!(admission.close(), Ok(1));
    let error = admission.write(&PACK).unwrap_err();
    assert_eq!(error.kind(), ErrorKind::Other);
    let cause = error.get_ref().and_then(|cause| cause.downcast_ref());
    assert_eq!(cause, Some(&Error::AdmissionClosed));
    assert!(error.to_string().starts_with("37: a chunk"), "{error}");
}

#[test]
fn shown_to_a_programmer() {
    let mut admission = fed([&PACK[..]]);
    let shown = format!("{admission:?}");
    assert_eq!(
        shown,
        "Admission { answer: Open, lost: None, provisional: 1, .. }"
    );
    admission.close().unwrap();
    assert!(format!("{admission:?}").contains("answer: Closed(Ok(1))"));
}
