//! khx list: the listing of a program, or of each rule of a pack.

use std::ffi::OsString;
use std::io::Write;

use khalixoshi::{depths, listing, pack, CELLS_MAX, PACK_MAX, PROGRAM_MAX};

use crate::args::Args;
use crate::failure::{Failure, Outcome};
use crate::{aside, explain, files, hidden, hints, lines, looks, paths};

pub const HELP: &str = "\
khx list: the listing of a program, or of each rule of a pack.

usage: khx list [--program | --pack] FILE
       khx list --paths [--program | --pack] [--cells N] FILE

  --program   FILE is a program
  --pack      FILE is a pack
  --paths     what the paths of the program meet, not all of its bytes in turn
  --cells N   for the paths of a program: so many stack cells (0 to 65535; 1024, the most taken, without it)

Without --program and --pack, a file whose name ends in .pack is a pack, and any other is a program. Before the
listing of a rule of a pack stands a line with its tag (in hex), its cells and its length.

The listing goes straight through the bytes. Where a path leads into the bytes of one of its lines, it does not
show what runs there: a warning says so, on standard error and as a comment (#) above the listing. With
--paths, which is for what the verifier accepts, each address that a path meets is listed, with the instruction
there and the depth before it; a label (L and the address) stands where a jump leads to, an instruction inside
the bytes of another one is marked, and so are bytes that no path meets. Of a program that is not accepted it
says why.

FILE may be -, standard input. Exit status: 0, or 1 where the program or the pack is refused; with --paths also
where a rule is not accepted.
";

/// What is asked for.
struct Asked {
    file: OsString,
    /// Whether the file is a pack.
    pack: bool,
    /// Whether --program says that it is none.
    program: bool,
    paths: bool,
    cells: usize,
}

/// A program on its own, or in a pack.
struct Rule<'a> {
    name: String,
    program: &'a [u8],
    cells: usize,
}

/// What is printed, and what is warned of.
struct Listed {
    text: String,
    warnings: Vec<String>,
    outcome: Outcome,
}

pub fn main(args: Args, out: &mut dyn Write) -> Result<Outcome, Failure> {
    let asked = Asked::by(args)?;
    let bytes = files::read(&asked.file, if asked.pack { PACK_MAX } else { PROGRAM_MAX })?;
    let hint = asked.hint(&bytes);
    let listed = asked.listed(&bytes).map_err(|why| {
        let name = files::name(&asked.file);
        Failure::Refused(format!("{name}: {why}")).hinted(hint.clone())
    })?;
    aside::hint(hint);
    for warning in listed.warnings {
        aside::tell(&format!("warning: {warning}"));
    }
    out.write_all(listed.text.as_bytes())?;
    Ok(listed.outcome)
}

impl Asked {
    fn by(mut args: Args) -> Result<Asked, Failure> {
        let (program, pack) = (args.flag("--program"), args.flag("--pack"));
        let (paths, has_cells) = (args.flag("--paths"), args.has("--cells"));
        let cells = args.number("--cells", CELLS_MAX as u32, 0..=65_535)?;
        if program && pack {
            return Err(args.wrong("--program and --pack are given"));
        }
        if has_cells && !paths {
            return Err(args.wrong("--cells is given without --paths"));
        }
        let [file] = args.files(&["FILE"])?;
        let pack = pack || (!program && looks::ends_in(&file, "pack"));
        if has_cells && pack {
            let message = "list: --cells is given, and a pack states the cells of its rules";
            return Err(Failure::usage(message));
        }
        Ok(Asked {
            file,
            pack,
            program,
            paths,
            cells: cells as usize,
        })
    }

    fn hint(&self, bytes: &[u8]) -> Option<String> {
        let given = (self.file.as_os_str(), bytes);
        match (self.pack, self.program) {
            (true, _) => pack::check(bytes)
                .err()
                .and_then(|_| hints::for_pack(given)),
            (false, false) => hints::for_program("it", given),
            (false, true) => None,
        }
    }

    /// The listing, or why the program or the pack is refused.
    fn listed(&self, bytes: &[u8]) -> Result<Listed, String> {
        let mut listed = Listed {
            text: String::new(),
            warnings: Vec::new(),
            outcome: Outcome::Good,
        };
        let name = files::name(&self.file);
        match self.pack {
            true => listed.add_pack(&name, bytes, self.paths)?,
            false => {
                let rule = Rule {
                    name,
                    program: bytes,
                    cells: self.cells,
                };
                listed.add(&rule, self.paths)?;
            }
        }
        Ok(listed)
    }
}

impl Listed {
    /// Each rule of a pack below its head. One that is not accepted keeps no other from
    /// being listed.
    fn add_pack(&mut self, name: &str, bytes: &[u8], paths: bool) -> Result<(), String> {
        let entries = pack::entries(bytes).map_err(|error| format!("refused {error}"))?;
        for entry in entries {
            if !self.text.is_empty() {
                self.text.push('\n');
            }
            self.text += &format!("{}\n", lines::head(&entry));
            let rule = Rule {
                name: format!("{name}: {:04X}", entry.tag),
                program: pack::body(bytes, &entry),
                cells: entry.cells.into(),
            };
            if let Err(why) = self.add(&rule, paths) {
                self.text += &format!("{why}\n");
                self.outcome = Outcome::Bad;
            }
        }
        Ok(())
    }

    fn add(&mut self, rule: &Rule, paths: bool) -> Result<(), String> {
        match paths {
            true => self.add_paths(rule),
            false => self.add_lines(rule),
        }
    }

    fn add_paths(&mut self, rule: &Rule) -> Result<(), String> {
        let Rule { program, cells, .. } = *rule;
        let why = |refused| explain::in_one_line(program, cells, refused);
        let map = depths(program, cells).map_err(why)?;
        self.text += &paths::listing(program, &map);
        Ok(())
    }

    fn add_lines(&mut self, rule: &Rule) -> Result<(), String> {
        let lines = listing(rule.program).map_err(|error| format!("refused {error}"))?;
        if let Some(warning) = hidden::warning(rule.program, rule.cells) {
            self.text += &format!("# warning: {warning}\n");
            self.warnings.push(format!("{}: {warning}", rule.name));
        }
        self.text += &lines;
        Ok(())
    }
}
