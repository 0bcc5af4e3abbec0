//! The verdicts of a whole pack.

use crate::{c, Error, PROGRAM_MAX, REPORT_MAX, UNMET};

/// Writes the verdicts of a pack at the start of a room, a line for each rule, and
/// gives their length. The map has at least [`PROGRAM_MAX`] cells and is written
/// over; [`REPORT_MAX`] bytes of room are enough. Refusals: 23, 25, which leave the
/// room as it was.
///
/// ```
/// use khalixoshi::{report, PROGRAM_MAX, REPORT_MAX};
///
/// let (mut map, mut room) = ([0; PROGRAM_MAX], [0; REPORT_MAX]);
/// let length = report(&[0x01], &mut map, &mut room)?;
/// assert_eq!(&room[..length], b"pack refused 30\n");
/// # Ok::<(), khalixoshi::Error>(())
/// ```
pub fn report(pack: &[u8], map: &mut [u16], room: &mut [u8]) -> Result<usize, Error> {
    let written = c::report(pack, map, room);
    Error::unless_none(written.refusal).map(|()| written.length)
}

/// The verdicts of a pack, as the program packcheck prints them: a line for each
/// rule, or only one that says why the pack itself is refused.
///
/// ```
/// let pack = [1, 0, 7, 0, 1, 0, 10, 0, 3, 0, 0x81, 0x3C, 0x00];
/// assert_eq!(khalixoshi::verdicts(&pack), "0007 refused 10 at 0001\n");
/// assert_eq!(khalixoshi::verdicts(&pack[..12]), "pack refused 34\n");
/// ```
pub fn verdicts(pack: &[u8]) -> String {
    let mut map = [UNMET; PROGRAM_MAX];
    let mut room = [0; REPORT_MAX];
    let length = report(pack, &mut map, &mut room).expect("map and room are long enough");
    String::from_utf8_lossy(&room[..length]).into_owned()
}
