//! All lines of an input, answered in order.

use std::io::{self, BufWriter, ErrorKind, Read, Write};

use crate::{answer, Engine, BAD_CASE, LINE_MAX};

const CHUNK: usize = 65_536;

/// Answers each line of the input, in order, until it ends; a last line without a
/// line feed is a line. What was asked so far is answered before more is waited for.
/// Lines may have any length: what is over [`LINE_MAX`] is not kept.
///
/// ```
/// use conform::{serve, Proved};
///
/// let cases = b"# one case\nfind 0100070002000a00040085831500 8\nfound\n";
/// let mut answers = Vec::new();
/// serve(&Proved, &cases[..], &mut answers)?;
/// assert_eq!(answers, b"# one case\nrefused 36\nbad case\n");
/// # Ok::<(), std::io::Error>(())
/// ```
pub fn serve(engine: &dyn Engine, mut input: impl Read, output: impl Write) -> io::Result<()> {
    let mut answers = Answers {
        engine,
        line: Line::Unbegun,
        output: BufWriter::new(output),
    };
    let mut chunk = vec![0; CHUNK];
    loop {
        match input.read(&mut chunk) {
            Ok(0) => break,
            Ok(count) => answers.take(&chunk[..count])?,
            Err(error) if error.kind() == ErrorKind::Interrupted => continue,
            Err(error) => return Err(error),
        }
        answers.output.flush()?;
    }
    if !matches!(answers.line, Line::Unbegun) {
        answers.end_line()?;
    }
    answers.output.flush()
}

/// What was read of a line.
enum Line {
    /// Nothing.
    Unbegun,
    /// The beginning of a case.
    Case(Vec<u8>),
    /// More than a case can have.
    TooLong,
    /// The beginning of a comment, which is copied already.
    Comment,
}

struct Answers<'a, W: Write> {
    engine: &'a dyn Engine,
    line: Line,
    output: BufWriter<W>,
}

impl<W: Write> Answers<'_, W> {
    fn take(&mut self, chunk: &[u8]) -> io::Result<()> {
        let mut pieces = chunk.split(|byte| *byte == b'\n');
        let first = pieces.next().unwrap_or_default();
        self.go_on(first)?;
        for piece in pieces {
            self.end_line()?;
            self.go_on(piece)?;
        }
        Ok(())
    }

    fn go_on(&mut self, piece: &[u8]) -> io::Result<()> {
        if let (Line::Unbegun, Some(first)) = (&self.line, piece.first()) {
            self.line = match first {
                b'#' => Line::Comment,
                _ => Line::Case(Vec::new()),
            };
        }
        match &mut self.line {
            Line::Case(line) if line.len() + piece.len() > LINE_MAX => self.line = Line::TooLong,
            Line::Case(line) => line.extend_from_slice(piece),
            Line::Comment => self.output.write_all(piece)?,
            Line::Unbegun | Line::TooLong => {}
        }
        Ok(())
    }

    fn end_line(&mut self) -> io::Result<()> {
        match &self.line {
            Line::Case(line) => {
                let answer = answer(self.engine, line);
                self.output.write_all(answer.as_bytes())?;
            }
            Line::TooLong => self.output.write_all(BAD_CASE.as_bytes())?,
            Line::Unbegun | Line::Comment => {}
        }
        self.line = Line::Unbegun;
        self.output.write_all(b"\n")
    }
}
