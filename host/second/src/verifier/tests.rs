//! The verifier held to 01's examples, to the order of its checks, to the path
//! condition taken literally, and to the run.

use super::*;
use crate::machine::{run, State, Status, FRESH};

const M4: [u8; 11] = [
    0x83, 0x37, 0x00, 0x3D, 0x06, 0x00, 0x33, 0x00, 0x1A, 0x3C, 0x01,
];

/// What a map lent holds before.
const LENT: u16 = 0xA1A1;

/// The verdict and the map after, for a map as long as the program.
fn verified(program: &[u8], cells: usize) -> (Verdict, Vec<u16>) {
    let mut map = vec![LENT; program.len()];
    (verify(program, cells, &mut map), map)
}

fn accepted(program: &[u8], cells: usize, map: &[u16]) {
    assert_eq!(
        verified(program, cells),
        (Verdict::Accepted, map.to_vec()),
        "{program:02X?}"
    );
}

fn refused(program: &[u8], cells: usize, number: u32, address: usize) {
    let map = vec![65_535; program.len()];
    assert_eq!(
        verified(program, cells),
        (Verdict::RefusedAt(number, address), map),
        "{program:02X?}"
    );
}

#[test]
fn m2_and_m3() {
    accepted(&[0x85, 0x83, 0x15, 0x00], 2, &[0, 1, 2, 1]);
    refused(&[0x85, 0x83, 0x15, 0x00], 1, 5, 1);
}

#[test]
fn m5() {
    const N: u16 = 65_535;
    accepted(&M4, 1, &[0, 1, N, 1, N, 0, 0, N, 1, 1, N]);
}

#[test]
fn m6_to_m8() {
    refused(&[0x81, 0x3D, 0x00], 1, 1, 1);
    refused(&[0x81, 0x3C, 0x00], 1, 10, 1);
    refused(&[], 1, 1, 0);
}

/// 20, 22, 23 in this order, before the walk; the map is untouched.
#[test]
fn sizes() {
    let untouched = |length: usize, cells, map_length: usize| {
        let mut map = vec![LENT; map_length];
        let verdict = verify(&vec![0x00; length], cells, &mut map);
        assert!(map.iter().all(|&cell| cell == LENT));
        verdict
    };
    assert_eq!(untouched(16_385, 1_025, 0), Verdict::Refused(20));
    assert_eq!(untouched(16_384, 1_025, 0), Verdict::Refused(22));
    assert_eq!(untouched(16_384, 1_024, 16_383), Verdict::Refused(23));
    assert_eq!(untouched(16_384, 1_024, 16_385), Verdict::Refused(23));
    assert_eq!(untouched(0, 0, 1), Verdict::Refused(23));
    assert_eq!(verified(&[0x00; 16_384], 1_024).0, Verdict::Accepted);
}

#[test]
fn the_order_of_an_instruction_s_checks() {
    // 2 on the first byte, 3, 2 on the second byte, before 4
    refused(&[0xC8], 0, 2, 0);
    refused(&[0x31], 0, 3, 0);
    refused(&[0x31, 0x10], 0, 2, 0);
    // 3 before 9, 9 before 4 and 5
    refused(&[0x55, 0x00], 0, 3, 0);
    refused(&[0x05], 0, 9, 0);
    refused(&[0x3B, 0x00], 0, 9, 0);
    // 4 before 5; both before what comes after
    refused(&[0x04], 0, 4, 0);
    refused(&[0x81], 0, 5, 0);
    // 8 before the next instruction is looked at
    refused(&[0x3F, 0x01], 0, 8, 0);
    refused(&[0x40, 0x00], 0, 8, 0);
    refused(&[0x59, 0x00, 0x01], 0, 8, 0);
    accepted(&[0x3F, 0x00], 0, &[0, 65_535]);
}

#[test]
fn the_order_of_the_successors() {
    // the next is met at another depth, the target is past the end
    let program = [0x80, 0x3D, 0x08, 0x80, 0x80, 0x04, 0x3D, 0xFF, 0x00];
    refused(&program, 2, 10, 6);
    // the next is past the end, the target is met at another depth
    refused(&[0x80, 0x80, 0x3D, 0x00], 2, 1, 2);
    // one of them alone
    refused(&[0x81, 0x3D, 0xFF, 0x00], 1, 1, 1);
    refused(&[0x81, 0x3D, 0x01, 0x00], 1, 10, 1);
    // both are one address
    accepted(&[0x81, 0x3D, 0x03, 0x00], 1, &[0, 1, 65_535, 0]);
}

#[test]
fn the_lowest_address_comes_first() {
    // to the end, then back below: 2 at 3 comes before 2 at 7
    let program = [0x3C, 0x04, 0x00, 0x7F, 0x81, 0x3D, 0x03, 0x7F];
    refused(&program, 1, 2, 3);
    accepted(&[0x3C, 0x00], 0, &[0, 65_535]);
    accepted(&[0x33, 0x00, 0x3C, 0x01], 1, &[0, 1, 1, 65_535]);
}

/// The path condition taken literally: every address and depth that a path
/// comes to, each looked at by itself. Gives the depth of each address met, or
/// nothing where some path is bad or two disagree.
fn by_paths(program: &[u8], cells: usize) -> Option<Vec<u16>> {
    let mut come_to = BTreeSet::new();
    let mut to_follow = vec![(0, 0)];
    while let Some((address, depth)) = to_follow.pop() {
        if address >= program.len() {
            return None;
        }
        if come_to.insert((address, depth)) {
            let (after, successors) = examine(program, cells, address, depth).ok()?;
            to_follow.extend(successors.into_iter().map(|next| (next, after)));
        }
    }
    let mut map = vec![65_535; program.len()];
    for (address, depth) in come_to {
        if map[address] != 65_535 {
            return None;
        }
        map[address] = depth as u16;
    }
    Some(map)
}

/// Steps through an accepted program: where it comes to is in the map, at that
/// depth, and it never faults but by 6 or 7.
fn runs_as_mapped(program: &[u8], cells: usize, map: &[u16]) {
    let (mut data, mut stack) = ([3; 64], vec![0; cells]);
    let mut state = FRESH;
    for _ in 0..200 {
        if state.status == Status::Running {
            assert_eq!(usize::from(map[state.address]), state.depth);
        }
        let (refusal, _, next): (_, _, State) = run(program, &mut data, &mut stack, state, 1);
        assert_eq!(refusal, None);
        if let Status::Faulted(number) = next.status {
            assert!(number == 6 || number == 7, "{program:02X?}");
        }
        state = next;
    }
}

#[test]
fn accepted_exactly_where_the_paths_are_good() {
    let vectors = crate::cases::verify::programs();
    for (program, cells) in vectors {
        let (verdict, map) = verified(&program, cells);
        match by_paths(&program, cells) {
            Some(by_paths) => {
                assert_eq!((verdict, &map), (Verdict::Accepted, &by_paths));
                runs_as_mapped(&program, cells, &map);
            }
            None => assert!(matches!(verdict, Verdict::RefusedAt(..)), "{program:02X?}"),
        }
    }
}
