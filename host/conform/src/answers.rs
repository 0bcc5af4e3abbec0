//! An answer as a line of text.

use crate::engine::{
    Decoded, Entry, Number, Ran, Readings, Reply, Ruling, Shape, State, Status, Verdict,
};

/// An answer as it is written: a first word, then fields, each after a blank.
#[derive(Default)]
pub struct Answer {
    line: Vec<u8>,
}

impl Answer {
    pub fn into_line(self) -> String {
        String::from_utf8(self.line).expect("an answer is made of text and digits")
    }

    pub fn text(&mut self, text: &str) {
        self.line.extend_from_slice(text.as_bytes());
    }

    fn number(&mut self, number: u64) {
        let mut digits = [0; 20];
        let (mut from, mut rest) = (digits.len(), number);
        loop {
            from -= 1;
            digits[from] = b'0' + (rest % 10) as u8;
            rest /= 10;
            if rest == 0 {
                break;
            }
        }
        self.line.push(b' ');
        self.line.extend_from_slice(&digits[from..]);
    }

    pub fn bytes(&mut self, bytes: &[u8]) {
        self.list(bytes.len());
        for byte in bytes {
            self.line.extend_from_slice(&HEX[usize::from(*byte)]);
        }
    }

    pub fn cells(&mut self, cells: &[u16]) {
        self.list(2 * cells.len());
        for byte in cells.iter().flat_map(|cell| cell.to_be_bytes()) {
            self.line.extend_from_slice(&HEX[usize::from(byte)]);
        }
    }

    /// Begins a list of so many bytes.
    fn list(&mut self, bytes: usize) {
        self.line.reserve(2 * bytes + 1);
        self.text(if bytes == 0 { " -" } else { " " });
    }

    fn refused(&mut self, number: Number) {
        self.text("refused");
        self.number(number as u64);
    }

    pub fn decoded(&mut self, answer: &Result<Decoded, Number>) {
        match answer {
            Ok(decoded) => {
                let instruction = &decoded.instruction;
                self.text("ok");
                self.number(decoded.length as u64);
                self.number(instruction.code.into());
                self.number(instruction.number.into());
                self.number(instruction.count.into());
                self.number(instruction.flags.into());
                for value in instruction.values {
                    self.number(value.into());
                }
            }
            Err(number) => self.refused(*number),
        }
    }

    /// A count and what it counts, or the refusal.
    fn counted(&mut self, answer: Result<u64, Number>) {
        match answer {
            Ok(count) => {
                self.text("ok");
                self.number(count);
            }
            Err(number) => self.refused(number),
        }
    }

    pub fn written(&mut self, answer: Result<usize, Number>, room: &[u8]) {
        self.counted(answer.map(|length| length as u64));
        self.bytes(room);
    }

    pub fn shape(&mut self, answer: Option<Shape>) {
        match answer {
            Some(shape) => {
                self.text("row");
                self.number(shape.length as u64);
                self.number(shape.taken as u64);
                self.number(shape.pushed as u64);
            }
            None => self.text("illegal"),
        }
    }

    pub fn ran(&mut self, ran: &Ran, data: &[u8], stack: &[u16]) {
        self.counted(ran.steps);
        self.state(&ran.state);
        self.bytes(data);
        self.cells(stack);
    }

    fn state(&mut self, state: &State) {
        self.number(state.address as u64);
        self.number(state.depth as u64);
        match state.status {
            Status::Running => self.text(" running"),
            Status::Halted => self.text(" halted"),
            Status::Faulted(number) => self.text(&format!(" faulted:{number}")),
        }
    }

    fn verdict(&mut self, verdict: Verdict) {
        match verdict {
            Verdict::Accepted => self.text("accepted"),
            Verdict::Refused(number, at) => {
                self.refused(number);
                match at {
                    Some(at) => self.number(at as u64),
                    None => self.text(" -"),
                }
            }
        }
    }

    pub fn verified(&mut self, verdict: Verdict, map: &[u16]) {
        self.verdict(verdict);
        self.cells(map);
    }

    /// Several answers, one behind the other.
    fn joined<T>(&mut self, answers: &[T], write: fn(&mut Answer, &T)) {
        for (index, answer) in answers.iter().enumerate() {
            if index > 0 {
                self.text(" ; ");
            }
            write(self, answer);
        }
    }

    pub fn read(&mut self, read: &Readings) {
        self.joined(&read.answers, Answer::decoded);
        self.text(" @");
        self.number(read.address as u64);
    }

    pub fn entries(&mut self, answer: &Result<Vec<Entry>, Number>) {
        match answer {
            Ok(entries) => {
                self.counted(Ok(entries.len() as u64));
                for entry in entries {
                    self.number(entry.tag.into());
                    self.place(entry);
                }
            }
            Err(number) => self.refused(*number),
        }
    }

    pub fn found(&mut self, answer: &Result<Entry, Number>) {
        match answer {
            Ok(entry) => {
                self.text("found");
                self.place(entry);
            }
            Err(number) => self.refused(*number),
        }
    }

    fn place(&mut self, entry: &Entry) {
        self.number(entry.cells.into());
        self.number(entry.offset.into());
        self.number(entry.length.into());
    }

    pub fn report(&mut self, report: &str) {
        match report {
            "" => self.text("-"),
            _ => self.text(&report.replace('\n', "|")),
        }
    }

    pub fn replies(&mut self, replies: &[Reply]) {
        self.joined(replies, Answer::reply);
    }

    fn reply(&mut self, reply: &Reply) {
        match reply {
            Reply::Taken => self.text("ok"),
            Reply::Open => self.text("open"),
            Reply::Good(programs, rulings) => self.good(*programs, rulings),
            Reply::Refused(number) => self.refused(*number),
        }
    }

    fn good(&mut self, programs: usize, rulings: &[Ruling]) {
        self.text("good");
        self.number(programs as u64);
        for ruling in rulings {
            self.number(ruling.tag.into());
            self.text(" ");
            self.verdict(ruling.verdict);
        }
    }
}

const HEX: [[u8; 2]; 256] = hex();

/// The two lower-case digits of each byte.
const fn hex() -> [[u8; 2]; 256] {
    let digits = b"0123456789abcdef";
    let mut pairs = [[0; 2]; 256];
    let mut byte = 0;
    while byte < 256 {
        pairs[byte] = [digits[byte / 16], digits[byte % 16]];
        byte += 1;
    }
    pairs
}
