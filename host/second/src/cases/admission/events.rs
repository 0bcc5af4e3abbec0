//! What may come before the close and after it, of good packs and of refused ones.

use super::case::Case;
use super::cuts::{empty, every_verdict};
use crate::cases::pack::built::{built, example, three};
use crate::cases::Vectors;

pub fn add_all(vectors: &mut Vectors) {
    nothing(vectors);
    after(vectors);
    too_soon(vectors);
    never(vectors);
}

/// No byte at all.
fn nothing(vectors: &mut Vectors) {
    let nothing = Case::of(&[]);
    nothing.clone().close().add(vectors);
    nothing.clone().ask().add(vectors);
    nothing.clone().chunk(0).close().ask().add(vectors);
    nothing.clone().ask().close().ask().add(vectors);
    nothing.close().close().chunk(0).ask().add(vectors);
}

/// Everything twice after the close, then one thing alone: of good packs and of such as
/// are refused by each number but 31.
fn after(vectors: &mut Vectors) {
    let mut packs = vec![
        vec![0, 0],
        example(),
        built(&three()),
        built(&every_verdict()),
        built(&empty(2)),
        vec![65, 0],
        example()[..9].to_vec(),
        example()[..13].to_vec(),
        [example(), vec![0]].concat(),
    ];
    for (place, byte) in [(10, 0), (13, 5), (14, 9)] {
        let mut damaged = built(&three());
        damaged[place] = byte;
        packs.push(damaged);
    }
    for pack in packs {
        let more = [&pack[..], &example(), &[0]].concat();
        let closed = Case::of(&more).chunk(pack.len()).close();
        let twice = |case: Case| case.close().chunk(0).ask().chunk(1).ask();
        twice(twice(closed.clone()).close()).add(vectors);
        closed.clone().ask().ask().add(vectors);
        closed.clone().close().ask().add(vectors);
        closed.clone().chunk(0).ask().add(vectors);
        closed.chunk(14).close().ask().add(vectors);
    }
}

/// Packs that are closed before their end; the rest comes after it.
fn too_soon(vectors: &mut Vectors) {
    for pack in [example(), built(&three()), built(&empty(1))] {
        for first in 0..pack.len() {
            let case = Case::of(&pack).chunk(first).close();
            case.chunk(pack.len() - first).close().ask().add(vectors);
        }
    }
}

/// Packs that are not closed.
fn never(vectors: &mut Vectors) {
    let pack = built(&three());
    for first in [0, 1, 26, 37, 38] {
        let case = Case::of(&pack).chunk(first).ask();
        case.chunk(pack.len() - first).ask().ask().add(vectors);
    }
}
