//! An admission of the proved library, watched from its first chunk on: verdicts are
//! provisional before the close, but those of a pack that is then good must be its own.

use super::proved::verdict;
use super::shown::{closed, Shown};
use crate::engine::{Event, Reply, Ruling};
use khalixoshi::{Admission, Answer, Error};

/// An admission, and the verdicts that it showed.
#[derive(Default)]
pub struct Watched {
    admission: Admission,
    shown: Shown,
}

impl Watched {
    /// Its answer to what comes next.
    pub fn reply(&mut self, event: &Event) -> Reply {
        match event {
            Event::Chunk(chunk) => self.chunk(chunk),
            Event::Close => self.close(),
            Event::Ask => self.ask(),
        }
    }

    fn chunk(&mut self, chunk: &[u8]) -> Reply {
        match self.admission.feed(chunk) {
            Ok(_) => {
                self.shown.look(&self.now());
                Reply::Taken
            }
            Err(error) => Reply::Refused(error.number()),
        }
    }

    fn close(&mut self) -> Reply {
        match self.admission.close() {
            Ok(programs) => {
                self.shown.look(&self.now());
                self.shown.good(programs)
            }
            Err(error) => Reply::Refused(error.number()),
        }
    }

    fn ask(&self) -> Reply {
        match self.admission.answer() {
            Answer::Open => Reply::Open,
            Answer::Closed(said) => closed(said.map_err(Error::number), self.now()),
        }
    }

    /// The verdicts that it shows now: provisional ones or final ones, of which one kind alone
    /// may be there.
    fn now(&self) -> Vec<Ruling> {
        let last = self.admission.verdicts().into_iter().flatten();
        let ruling = |it: khalixoshi::Ruling| Ruling {
            tag: it.tag,
            verdict: verdict(it.verdict),
        };
        self.admission
            .provisional()
            .chain(last)
            .map(ruling)
            .collect()
    }
}
