//! The parts of a line of the family `stream`.

/// The events of a stream; none of any other line.
pub fn events(line: &[u8]) -> Option<Vec<&[u8]>> {
    let events = line.strip_prefix(b"stream ")?;
    Some(events.split(|&byte| byte == b' ').collect())
}

/// The chunks of a stream before its close, in hex, one behind the other.
pub fn came(events: &[&[u8]]) -> Vec<u8> {
    let before = events.iter().take_while(|event| **event != b"close");
    let chunks = before.filter(|event| !matches!(**event, b"ask" | b"-"));
    chunks.copied().collect::<Vec<_>>().concat()
}
