//! A program as text.

use crate::{c, Error, LIST_MAX, PROGRAM_MAX};

/// Writes the listing of a program at the start of a room, a line for each
/// instruction, and gives its length. [`LIST_MAX`] bytes of room are enough, and 17
/// for each byte of the program. Refusals: 20, 25, which leave the room as it was.
///
/// ```
/// use khalixoshi::{list, Error};
///
/// let mut room = [b'.'; 12];
/// assert_eq!(list(&[0x00], &mut room), Ok(10));
/// assert_eq!(&room, b"0000 halt\n..");
/// assert_eq!(list(&[0x00], &mut room[..9]), Err(Error::Room));
/// ```
pub fn list(program: &[u8], room: &mut [u8]) -> Result<usize, Error> {
    let written = c::list(program, room);
    Error::unless_none(written.refusal).map(|()| written.length)
}

/// The listing of a program. Refusal: 20.
///
/// ```
/// assert_eq!(
///     khalixoshi::listing(&[0x85, 0x83, 0x15, 0x00])?,
///     "0000 push-u8 $05\n0001 push-u8 $03\n0002 sub\n0003 halt\n"
/// );
/// # Ok::<(), khalixoshi::Error>(())
/// ```
pub fn listing(program: &[u8]) -> Result<String, Error> {
    let enough = LIST_MAX / PROGRAM_MAX * program.len().min(PROGRAM_MAX);
    let mut room = vec![0; enough];
    let length = list(program, &mut room)?;
    Ok(String::from_utf8_lossy(&room[..length]).into_owned())
}
