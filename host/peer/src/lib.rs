//! What `khx bench` times: the functions of the proved library, and plain careful C that
//! gives the same answers, behind a safe face. A refusal is a number, 0 for none.
//!
//! Where a loop lies modulo 64 alone moves its time, so build.rs links each function at
//! four places, and no side is measured at a lucky one.

mod functions;

use functions::{
    copies, AdmitChunk, AdmitNumbers, Copies, Find, List, PackCheck, Read, Report, Run, Scan,
    Verify, VerifyByCursor,
};
pub use functions::{
    sums, Admitter, Cursor, Finder, Form, Functions, Lister, Measured, Memmove, Memories, Plain,
    Proved, Reader, Reporter, Scanner, Shipped, HALTED,
};

/// Each function is linked so many times.
pub const PLACES: usize = 4;

/// The first copy begins at a multiple of `LINE`, and each next one so many bytes further
/// past one: the places that a linker can give a function that asks for no more.
pub const APART: usize = 16;
const LINE: usize = 64;

/// The C as one compiler made it at one level.
pub struct Build {
    /// The compiler and its level.
    pub name: &'static str,
    /// The compiler's own words for its version.
    pub version: &'static str,
    /// Its functions; the run is the one that copies byte by byte, the verifier the one
    /// with a bitmap.
    pub functions: Functions<Plain>,
    /// Its verifier with a cursor.
    pub cursor: Cursor,
    /// Its run that copies by memmove.
    pub memmove: Memmove,
    /// Its scan of a pack for a tag.
    pub scanner: Scanner,
}

/// The functions of a side, from the names of their copies.
macro_rules! functions {
    ($form:ty, $run:tt $verify:tt $pack_check:tt) => {
        Functions {
            run: copies!(Run<$form>, $run),
            verify: copies!(Verify<$form>, $verify),
            pack_check: copies!(PackCheck<$form>, $pack_check),
        }
    };
}

/// The sides, from the names of their copies.
macro_rules! sides {
    (
        proved $run:tt $verify:tt $pack_check:tt $read:tt $list:tt $find:tt $lookup:tt
            $report:tt $start:tt $chunk:tt $close:tt;
        $($name:literal $version:literal $c_run:tt $c_verify:tt $c_pack_check:tt $c_cursor:tt $c_memmove:tt $c_scan:tt;)*
    ) => {
        /// The proved library.
        pub static PROVED: Functions<Proved> = functions!(Proved, $run $verify $pack_check);

        /// The proved library's reader.
        pub static READER: Reader = Reader(copies!(Read, $read));

        /// The proved library's listing.
        pub static LISTER: Lister = Lister(copies!(List, $list));

        /// The proved library's find, which checks the whole pack each time.
        pub static FIND: Finder = Finder(copies!(Find, $find));

        /// The proved library's lookup, for a pack that was checked.
        pub static LOOKUP: Finder = Finder(copies!(Find, $lookup));

        /// The proved library's report on a whole pack.
        pub static REPORTER: Reporter = Reporter(copies!(Report, $report));

        /// The proved library's admission of a pack in chunks.
        pub static ADMITTER: Admitter = Admitter {
            start: copies!(AdmitNumbers, $start),
            chunk: copies!(AdmitChunk, $chunk),
            close: copies!(AdmitNumbers, $close),
        };

        /// The builds of the C that are measured: what a user would write instead is
        /// compiled by the best compiler at hand.
        pub static BUILDS: &[Build] = &[$(Build {
            name: $name,
            version: $version,
            functions: functions!(Plain, $c_run $c_verify $c_pack_check),
            cursor: Cursor(copies!(VerifyByCursor, $c_cursor)),
            memmove: Memmove(copies!(Run<Plain>, $c_memmove)),
            scanner: Scanner(copies!(Scan, $c_scan)),
        }),*];
    };
}

// What build.rs linked, as `sides!` takes it.
include!(concat!(env!("OUT_DIR"), "/sides.rs"));

/// The library's own run, as every program has it.
pub static SHIPPED: Shipped = Shipped(copies!(Run<Proved>, [khx_run]));

/// How far past a multiple of 64 it lies, here and in every program: tools/placed fixes it
/// in the library for x86-64.
pub fn shipped_past() -> Option<usize> {
    let [run] = SHIPPED.0;
    if cfg!(target_arch = "x86_64") {
        Some(past(run as usize))
    } else {
        None
    }
}

/// How far past a multiple of 64 an address is.
fn past(address: usize) -> usize {
    address % LINE
}

/// An error where a copy does not lie where it should.
pub fn check_places() -> Result<(), String> {
    let proved = "the proved library";
    check_functions(proved, &PROVED)?;
    check(proved, "read", READER.0.map(|copy| copy as usize))?;
    check(proved, "list", LISTER.0.map(|copy| copy as usize))?;
    check(proved, "find", FIND.0.map(|copy| copy as usize))?;
    check(proved, "lookup", LOOKUP.0.map(|copy| copy as usize))?;
    check(proved, "report", REPORTER.0.map(|copy| copy as usize))?;
    check(
        proved,
        "admission's start",
        ADMITTER.start.map(|copy| copy as usize),
    )?;
    check(
        proved,
        "admission's chunk",
        ADMITTER.chunk.map(|copy| copy as usize),
    )?;
    check(
        proved,
        "admission's close",
        ADMITTER.close.map(|copy| copy as usize),
    )?;
    for build in BUILDS {
        let side = format!("C by {}", build.name);
        check_functions(&side, &build.functions)?;
        let cursor = build.cursor.0.map(|copy| copy as usize);
        check(&side, "verify with a cursor", cursor)?;
        let memmove = build.memmove.0.map(|copy| copy as usize);
        check(&side, "run by memmove", memmove)?;
        let scanner = build.scanner.0.map(|copy| copy as usize);
        check(&side, "scan for a tag", scanner)?;
    }
    Ok(())
}

fn check_functions<F: Form>(side: &str, functions: &Functions<F>) -> Result<(), String> {
    check(side, "run", functions.run.map(|copy| copy as usize))?;
    check(side, "verify", functions.verify.map(|copy| copy as usize))?;
    let pack_check = functions.pack_check.map(|copy| copy as usize);
    check(side, "pack check", pack_check)
}

/// An error where one of the addresses is not what its place says.
fn check(side: &str, function: &str, addresses: Copies<usize>) -> Result<(), String> {
    for (place, address) in addresses.iter().enumerate() {
        let (past, wanted) = (address % LINE, APART * place);
        if past != wanted {
            return Err(format!(
                "{function} of {side} begins {past} bytes past a multiple of {LINE}, where \
                 host/peer/build.rs laid it at {wanted}: its compiler or the linker of khx \
                 aligns it otherwise, so this khx measures nothing"
            ));
        }
    }
    Ok(())
}

#[cfg(test)]
mod tests {
    use super::*;

    #[test]
    fn every_copy_lies_at_its_place() {
        assert_eq!(check_places(), Ok(()));
    }

    #[test]
    fn a_copy_that_was_moved_is_noticed() {
        let at = |addresses| check("C", "run", addresses);
        assert_eq!(at([0x1000, 0x2050, 0x30A0, 0x4070]), Ok(()));
        let told = at([0x1000, 0x2050, 0x30B0, 0x4070]).unwrap_err();
        let begins = "run of C begins 48 bytes past a multiple of 64, where";
        assert!(told.starts_with(begins), "{told}");
    }

    #[test]
    fn the_place_of_an_address() {
        let places = [0x1000, 0x1010, 0x1020, 0x1030, 0x1040].map(past);
        assert_eq!(places, [0, APART, 2 * APART, 3 * APART, 0]);
        assert_eq!(past(0x1008), 8);
    }

    #[test]
    fn gcc_is_always_measured() {
        let names: Vec<&str> = BUILDS.iter().map(|build| build.name).collect();
        assert_eq!(names[..2], ["gcc -O2", "gcc -O3"]);
    }
}
