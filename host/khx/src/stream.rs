//! khx check --stream: a pack checked while it comes. Standard output has final verdicts
//! alone, so that nobody takes a provisional one for final.

use std::ffi::OsString;
use std::io::Write;

use khalixoshi::{Admission, Error, Ruling};

use crate::args::Args;
use crate::failure::{Failure, Outcome};
use crate::{aside, files, words};

pub fn main(mut args: Args, out: &mut dyn Write) -> Result<Outcome, Failure> {
    let file = named(&mut args)?;
    let mut coming = Coming::new();
    let read = files::read_as_it_comes(&file, |piece| coming.takes(piece));
    if read.is_err() {
        coming.tell_withdrawn();
    }
    read?;
    match coming.closed() {
        Ok(rulings) => good(&rulings, out),
        Err(error) => refused(error, out),
    }
}

/// The file to read: standard input where none is named.
fn named(args: &mut Args) -> Result<OsString, Failure> {
    let mut words = args.rest()?;
    let file = words.pop().unwrap_or_else(|| "-".into());
    match words.is_empty() {
        true => Ok(file),
        false => Err(args.wrong(&format!("one word too many: {}", file.to_string_lossy()))),
    }
}

/// A pack that is coming, and what was told of it.
struct Coming {
    admission: Admission,
    verdicts: usize,
    lost: Option<Error>,
}

impl Coming {
    fn new() -> Coming {
        Coming {
            admission: Admission::new(),
            verdicts: 0,
            lost: None,
        }
    }

    /// Takes a piece and tells what it brought; whether nothing more can change the answer.
    /// That is so only by 31, which comes before all else.
    fn takes(&mut self, piece: &[u8]) -> Result<bool, Failure> {
        let feed = self.admission.feed(piece);
        feed.map_err(|error| Failure::Refused(error.to_string()))?;
        self.tell_verdicts();
        self.tell_lost();
        Ok(self.lost == Some(Error::PackSize))
    }

    /// The final verdicts, or what the pack is refused by.
    fn closed(mut self) -> Result<Vec<Ruling>, Error> {
        if let Err(error) = self.admission.close() {
            self.tell_withdrawn();
            return Err(error);
        }
        let rulings = self.admission.verdicts().expect("the pack is good");
        Ok(rulings.collect())
    }

    /// Tells the verdicts that have come.
    fn tell_verdicts(&mut self) {
        for ruling in self.admission.provisional().skip(self.verdicts) {
            aside::tell(&format!("provisional: {ruling}"));
            self.verdicts += 1;
        }
    }

    /// Tells that the verdicts told before do not stand, if there are any.
    fn tell_withdrawn(&self) {
        if self.verdicts > 0 {
            let verdicts = words::count(self.verdicts, "provisional verdict");
            aside::tell(&format!("withdrawn: {verdicts}"));
        }
    }

    fn tell_lost(&mut self) {
        let lost = self.admission.lost();
        if let Some(error) = lost.filter(|_| lost != self.lost) {
            aside::tell(&format!(
                "lost: the pack is refused, whatever follows: {error}"
            ));
        }
        self.lost = lost;
    }
}

/// The verdicts on the rules of a good pack, and what is wrong with each rule refused.
fn good(rulings: &[Ruling], out: &mut dyn Write) -> Result<Outcome, Failure> {
    for ruling in rulings {
        writeln!(out, "{ruling}")?;
    }
    let mut outcome = Outcome::Good;
    for Ruling { tag, verdict } in rulings {
        if let Err(refused) = verdict {
            outcome = Outcome::Bad;
            writeln!(out, "\n{tag:04X}:\n  {refused}\n  {}", refused.advice())?;
        }
    }
    Ok(outcome)
}

fn refused(error: Error, out: &mut dyn Write) -> Result<Outcome, Failure> {
    let (number, advice) = (error.number(), error.advice());
    write!(out, "pack refused {number}\n\n{error}\n  {advice}\n")?;
    Ok(Outcome::Bad)
}
