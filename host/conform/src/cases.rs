//! The fourteen cases: each takes its fields, asks, and writes the answer. None where
//! a field is missing, too many or outside its kind: nothing was asked then.

use crate::answers::Answer;
use crate::engine::{Engine, Entry, Instruction, Number};
use crate::fields::Fields;
use crate::{BAD_CASE, LINE_MAX};

/// The answer to a line, which is handed in without its line feed and may hold any
/// bytes. A line that is empty or begins with `#` comes back as it stands, but that
/// bytes which are no UTF-8 are replaced ([`serve`](crate::serve) copies them).
pub fn answer(engine: &dyn Engine, line: &[u8]) -> String {
    if line.is_empty() || line.starts_with(b"#") {
        return String::from_utf8_lossy(line).into_owned();
    }
    if line.len() > LINE_MAX {
        return BAD_CASE.to_string();
    }
    asked(engine, line).map_or_else(|| BAD_CASE.to_string(), Answer::into_line)
}

fn asked(engine: &dyn Engine, line: &[u8]) -> Option<Answer> {
    let mut fields = Fields::of(line);
    match fields.word()? {
        b"decode" => decode(engine, fields),
        b"encode" => encode(engine, fields),
        b"shape" => shape(engine, fields),
        b"step" => step(engine, fields),
        b"run" => run(engine, fields),
        b"verify" => verify(engine, fields),
        b"listing" => listing(engine, fields),
        b"read" => read(engine, fields),
        b"pack" => pack(engine, fields),
        b"find" => by_tag(fields, |pack, tag| engine.find(pack, tag)),
        b"lookup" => by_tag(fields, |pack, tag| engine.lookup(pack, tag)),
        b"writepack" => writepack(engine, fields),
        b"report" => report(engine, fields),
        b"stream" => stream(engine, fields),
        _ => None,
    }
}

fn decode(engine: &dyn Engine, mut fields: Fields) -> Option<Answer> {
    let program = fields.bytes()?;
    let at = fields.number_u16()?;
    fields.end()?;
    let mut answer = Answer::default();
    answer.decoded(&engine.decode(&program, at.into()));
    Some(answer)
}

fn encode(engine: &dyn Engine, mut fields: Fields) -> Option<Answer> {
    let instruction = Instruction {
        code: fields.number_u8()?,
        number: fields.number_u16()?,
        count: fields.number_u8()?,
        flags: fields.number_u8()?,
        values: [
            fields.number_u16()?,
            fields.number_u16()?,
            fields.number_u16()?,
            fields.number_u16()?,
        ],
    };
    let mut room = fields.bytes()?;
    fields.end()?;
    let mut answer = Answer::default();
    answer.written(engine.encode(&instruction, &mut room), &room);
    Some(answer)
}

fn shape(engine: &dyn Engine, mut fields: Fields) -> Option<Answer> {
    let first = fields.number_u8()?;
    fields.end()?;
    let mut answer = Answer::default();
    answer.shape(engine.shape(first));
    Some(answer)
}

fn step(engine: &dyn Engine, mut fields: Fields) -> Option<Answer> {
    let program = fields.bytes()?;
    let mut data = fields.bytes()?;
    let mut stack = fields.cells()?;
    let state = fields.state()?;
    fields.end()?;
    let ran = engine.step(&program, &mut data, &mut stack, state);
    let mut answer = Answer::default();
    answer.ran(&ran, &data, &stack);
    Some(answer)
}

fn run(engine: &dyn Engine, mut fields: Fields) -> Option<Answer> {
    let program = fields.bytes()?;
    let mut data = fields.bytes()?;
    let mut stack = fields.cells()?;
    let state = fields.state()?;
    let budget = fields.number_u32()?;
    fields.end()?;
    let ran = engine.run(&program, &mut data, &mut stack, state, budget);
    let mut answer = Answer::default();
    answer.ran(&ran, &data, &stack);
    Some(answer)
}

fn verify(engine: &dyn Engine, mut fields: Fields) -> Option<Answer> {
    let program = fields.bytes()?;
    let cells = fields.number_u16()?;
    let mut map = fields.cells()?;
    fields.end()?;
    let verdict = engine.verify(&program, cells.into(), &mut map);
    let mut answer = Answer::default();
    answer.verified(verdict, &map);
    Some(answer)
}

fn listing(engine: &dyn Engine, mut fields: Fields) -> Option<Answer> {
    let program = fields.bytes()?;
    let mut room = fields.bytes()?;
    fields.end()?;
    let mut answer = Answer::default();
    answer.written(engine.listing(&program, &mut room), &room);
    Some(answer)
}

fn read(engine: &dyn Engine, mut fields: Fields) -> Option<Answer> {
    let program = fields.bytes()?;
    let count = fields.number_u16()?;
    fields.end()?;
    let mut answer = Answer::default();
    answer.read(&engine.read(&program, count.into()));
    Some(answer)
}

fn pack(engine: &dyn Engine, mut fields: Fields) -> Option<Answer> {
    let pack = fields.bytes()?;
    fields.end()?;
    let mut answer = Answer::default();
    answer.entries(&engine.pack(&pack));
    Some(answer)
}

/// A pack asked for a tag, in either way.
fn by_tag(
    mut fields: Fields,
    asked: impl Fn(&[u8], u16) -> Result<Entry, Number>,
) -> Option<Answer> {
    let pack = fields.bytes()?;
    let tag = fields.number_u16()?;
    fields.end()?;
    let mut answer = Answer::default();
    answer.found(&asked(&pack, tag));
    Some(answer)
}

fn writepack(engine: &dyn Engine, mut fields: Fields) -> Option<Answer> {
    let tags = fields.cells()?;
    let cells = fields.cells()?;
    let lengths = fields.cells()?;
    let bodies = fields.bytes()?;
    let mut room = fields.bytes()?;
    fields.end()?;
    let written = engine.writepack(&tags, &cells, &lengths, &bodies, &mut room);
    let mut answer = Answer::default();
    answer.written(written, &room);
    Some(answer)
}

fn report(engine: &dyn Engine, mut fields: Fields) -> Option<Answer> {
    let pack = fields.bytes()?;
    fields.end()?;
    let mut answer = Answer::default();
    answer.report(&engine.report(&pack));
    Some(answer)
}

fn stream(engine: &dyn Engine, mut fields: Fields) -> Option<Answer> {
    let events = fields.events()?;
    let mut answer = Answer::default();
    answer.replies(&engine.stream(&events));
    Some(answer)
}
