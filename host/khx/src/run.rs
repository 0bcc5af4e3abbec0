//! khx run: runs a program over a font table, and says its verdict.

use std::io::Write;

use khalixoshi::tables::{tests_mark, Facts, Lending, Next, Preamble, Verdict, Why, BUDGET};
use khalixoshi::{depths, Status, CELLS_MAX, PROGRAM_MAX};

use crate::args::Args;
use crate::failure::{Failure, Outcome};
use crate::machine::{self, Machine};
use crate::table::{self, Table};
use crate::{aside, explain, files, hints, words};

pub const HELP: &str = "\
khx run: runs a program over a font table, and says its verdict.

usage: khx run PROGRAM TABLE [--cells N] [--budget N] [--trace] [--verdict]

  --cells N    so many stack cells (0 to 65535; 1024, the most that are taken, without it)
  --budget N   at most so many steps (0 to 4294967295; 20000000 without it)
  --trace      print each step first: address, instruction, depth, and the top of the stack before it
  --verdict    print the verdict alone

TABLE is a table laid out as the rules in examples/ expect it (examples/README.md): 64 bytes that begin with
the mark KHX1, and behind them the whole table. `tools/lend FONT TABLE` writes it. The program is run if the
verifier accepts it for the cells, and again over the bytes that it asks for; each byte lent counts as a step
of the budget. The verdict is `good`, `refused REASON`, or `no verdict: ` and why.

A file without the mark is the data as it stands, run over once, and there is no verdict. A table as it stands
in the font is such a file: lay it out first. A rule that begins with the test of the mark, as those in examples/
do, is not run over it.

Printed are the status (halted, faulted with its number and meaning, or running where the budget is used) with
the address, the steps of all runs, the depth and the stack in hex, its top first; and the verdict.

PROGRAM or TABLE may be -, standard input. Exit status: 0 for the verdict good, or, without the mark and without
--verdict, for a halt; 1 for anything else; 2 for bad usage, or a file that cannot be read or is laid out wrong.
";

/// What was asked for beside the files.
struct Wanted {
    budget: u32,
    trace: bool,
    verdict_alone: bool,
}

pub fn main(mut args: Args, out: &mut dyn Write) -> Result<Outcome, Failure> {
    let cells = args.number("--cells", CELLS_MAX as u32, 0..=65_535)?;
    let wanted = Wanted {
        budget: args.number("--budget", BUDGET, 0..=u32::MAX)?,
        trace: args.flag("--trace"),
        verdict_alone: args.flag("--verdict"),
    };
    let [program_file, table_file] = args.files(&["PROGRAM", "TABLE"])?;
    if program_file == "-" && table_file == "-" {
        return Err(Failure::usage("run: only one file can be standard input"));
    }
    let program = files::read(&program_file, PROGRAM_MAX)?;
    let table = table::read(&table_file)?;
    let hint = hints::for_run((&program_file, &program), (&table_file, table.plain()))
        .or_else(|| wanted.hint(&program, cells as usize, &table));
    match wanted.answered(program, cells as usize, table, out) {
        Ok(outcome) => {
            // The verdict first, if anybody reads it.
            out.flush()?;
            aside::hint(hint);
            Ok(outcome)
        }
        Err(failure) => Err(failure.hinted(hint)),
    }
}

impl Wanted {
    /// Whether a verdict is due: where it is asked for, and of a rule that tests the mark.
    fn judges(&self, program: &[u8]) -> bool {
        self.verdict_alone || tests_mark(program)
    }

    /// Why there can be no verdict, and what to do about it.
    fn hint(&self, program: &[u8], cells: usize, table: &Table) -> Option<String> {
        match table {
            Table::LaidOut(..) => depths(program, cells)
                .err()
                .map(|refused| explain::in_one_line(program, cells, refused)),
            Table::Plain(_) if self.judges(program) => {
                Some("TABLE is not laid out: tools/lend FONT TABLE writes it".to_string())
            }
            Table::Plain(_) => None,
        }
    }

    /// A rule that judges is run over a table laid out alone.
    fn answered(
        &self,
        program: Vec<u8>,
        cells: usize,
        table: Table,
        out: &mut dyn Write,
    ) -> Result<Outcome, Failure> {
        let judges = self.judges(&program);
        let mut machine = Machine::new(program, cells);
        match table {
            Table::LaidOut(facts, table) => {
                let verdict = self.judged(&mut machine, &table, &facts, out)?;
                self.say(verdict, &machine, out)
            }
            Table::Plain(_) if judges => self.say(Verdict::None(Why::Unmarked), &machine, out),
            Table::Plain(mut data) => self.only_run(&mut machine, &mut data, out),
        }
    }

    /// What the program says of a table laid out, by the convention.
    fn judged(
        &self,
        machine: &mut Machine,
        table: &[u8],
        facts: &Facts,
        out: &mut dyn Write,
    ) -> Result<Verdict, Failure> {
        if let Err(refused) = machine.verified() {
            return Ok(Verdict::None(Why::Rule(refused)));
        }
        let mut lending = match Lending::new(table, facts, self.budget) {
            Ok(lending) => lending,
            Err(why) => return Ok(Verdict::None(why)),
        };
        loop {
            if let Err(error) = machine.start(lending.data()) {
                return Ok(Verdict::None(Why::Run(error)));
            }
            let left = lending.left();
            self.run(machine, lending.data(), left, out)?;
            let (ran, cells) = machine.came_to();
            match lending.after(ran, cells) {
                Next::Verdict(verdict) => return Ok(verdict),
                Next::Again if self.trace => writeln!(out, "{}", lent_now(lending.data()))?,
                Next::Again => {}
            }
        }
    }

    fn only_run(
        &self,
        machine: &mut Machine,
        data: &mut [u8],
        out: &mut dyn Write,
    ) -> Result<Outcome, Failure> {
        machine.start(data).map_err(machine::refused)?;
        self.run(machine, data, self.budget, out)?;
        machine.print(out)?;
        let (ran, _) = machine.came_to();
        Ok(match ran.state.status {
            Status::Halted => Outcome::Good,
            Status::Running | Status::Faulted(_) => Outcome::Bad,
        })
    }

    fn run(
        &self,
        machine: &mut Machine,
        data: &mut [u8],
        budget: u32,
        out: &mut dyn Write,
    ) -> Result<(), Failure> {
        match self.trace {
            true => machine.step_by_step(data, budget, out),
            false => machine.finish(data, budget),
        }
    }

    fn say(
        &self,
        verdict: Verdict,
        machine: &Machine,
        out: &mut dyn Write,
    ) -> Result<Outcome, Failure> {
        match verdict {
            _ if self.verdict_alone => writeln!(out, "{verdict}")?,
            Verdict::None(_) => {
                machine.print(out)?;
                writeln!(out, "{verdict}")?;
            }
            Verdict::Good | Verdict::Refused(_) => {
                machine.print(out)?;
                writeln!(out, "verdict: {verdict}")?;
            }
        }
        Ok(match verdict {
            Verdict::Good => Outcome::Good,
            Verdict::Refused(_) | Verdict::None(_) => Outcome::Bad,
        })
    }
}

fn lent_now(data: &[u8]) -> String {
    let Preamble { lent, start, .. } = Preamble::read(data);
    format!("-- lent {} from {start} on", words::count(lent, "byte"))
}
