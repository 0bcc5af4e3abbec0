"""Tests of what the gate's checks of sources, pages and edits rest on: each notices what it is for, and passes what is right."""
import importlib.machinery
import importlib.util
import pathlib
import tempfile
import unittest

from sources import crates, edits, rattle, refusals, rows, statements

HERE = pathlib.Path(__file__).resolve().parent


def command(name):
    """A command of tools/ as a module."""
    loader = importlib.machinery.SourceFileLoader(name, str(HERE.parent / name))
    module = importlib.util.module_from_spec(importlib.util.spec_from_loader(name, loader))
    loader.exec_module(module)
    return module


class Case(unittest.TestCase):
    def repository(self, files):
        """A repository of these files below crates/, in a temporary folder."""
        folder = tempfile.TemporaryDirectory()
        self.addCleanup(folder.cleanup)
        for name, text in files.items():
            file = pathlib.Path(folder.name) / "crates" / name
            file.parent.mkdir(parents=True, exist_ok=True)
            file.write_text(text, encoding="utf-8")
        return pathlib.Path(folder.name)

    def public(self, files):
        return {folder.name: crates.public(folder) for folder in crates.libraries(self.repository(files))}


SOURCE = """// A source.
#![tactic(auto)]

ghost use lib.ListN.{length, take as taken} -- ; not yet
    ;
use other::Given;
mod inner;
pub mod open_one { pub fn within() -> u8 ensures { result ≡ 1 } { 1 } }
pub use inner::{Shown, shown as given};

// A text with a brace, and one in a comment: {
const TEXT: [u8; 3] = *b"\\"{\\x01";

pub(crate) fn own() {}

// Of two lines.
// The second.
pub fn long<'a>(
    first: &'a mut [u8], // }
    second: char,
) -> &'a [u8]
where
    'a: 'a,
    requires { length first.old ≤ 2 -- }
    }
    ensures told { {- } -} taken result ≡ length first.new }
    ensures well { true }
{
    let brace = '{';
    if second == '}' { return first; } /* { /* } */ */
    first
}
"""
INNER = """pub struct Shown { pub at: usize, hidden: u8 }
impl Shown {
    pub fn at(&mut self) -> usize
        ensures { result ≡ 0 }
    { 0 }
    fn own(self) {}
}
pub fn shown() {}
pub fn unseen() {}
#[unsafe(no_mangle)]
pub extern "C" fn khx_seen(n: usize) -> usize
    requires { n ≡ 7 }
    ensures { result ≡ n }
{ n }
"""
METHOD = """#![tactic(auto)]
ghost use lib.ListN.{length};
pub struct S { a: u8 }
impl S {
    // One.
    #[tactic(auto, using(crate::proofs::A::one))]
    pub fn f(self, n: u8) -> u8
        ensures long { result ≡ length n }
        ensures same { result ≡ n }
    { n }
}
"""
BODIES = """// A crate.
const N: u8 = 3;

// Twice.
pub fn f(n: u8) -> u8
    requires { n ≡ 1 }
    ensures { result ≡ n }
{
    n + 0
}
"""
TABLE = r"""const ROWS: [u8; 9] = *b"\
\x01\x00\x00\x00\x00\x00\
\x10\x02\x01\
";
"""
NAMES = """abbrev pub names : List String
names =
    -- 00
    "halt" ∷ "jump-if"
    ∷ "push-u8" ∷ []

other = 1
"""
LINE = "rt: must-fail one/wrong.edit: "
ERROR = LINE + "refused, as it must be: ./proofs/f/Answers.antt:1:1: error: `returns`: "
OPEN = LINE + "refused, as it must be: note: src/lib.rt:1:1: it is not proved that "
DIFFER = ERROR + "computed as far as they go, the two types first differ where one has `{}` (expected) and the ot"
ARE = ERROR + "computed as far as they go, the two types are `{}` (expected) a"
FACT = "`omega`: the goal does not follow from what it read. All of that holds, and the goal fails"
NO_NAME = "`goal.returns-2`: module `Rattle.one.proofs.f.Goals` has no `returns-2` that can be named from here"
LIMIT = "refused, as it must be (only by a limit of the prover, which gave no verdict, so this says less of the contract: choose a change that it refuses sooner): "
GONE = "refused, as it must be (only because a proof file names what the edit took away, so this says little of the contract: change a value and keep the names): "


class Sources(Case):
    def setUp(self):
        self.shown = {one.name: one for one in self.public({"one/src/lib.rt": SOURCE, "one/src/inner.rt": INNER})["one"]}

    def test_public_names(self):
        self.assertEqual(sorted(self.shown), sorted(f"one::{name}" for name in ("open_one::within", "Shown", "given", "long", "Shown::at", "inner::khx_seen")))

    def test_function(self):
        long = self.shown["one::long"]
        self.assertEqual(long.item.about, "// Of two lines.\n// The second.")
        self.assertEqual([clause.word for clause in long.item.clauses], ["requires", "ensures told", "ensures well"])
        self.assertEqual(long.item.clauses[0].text, "length first.old ≤ 2")
        self.assertEqual(long.item.clauses[1].text, "taken result ≡ length first.new")
        self.assertNotIn("//", long.item.text)
        self.assertEqual(long.words, {"length": "lib.ListN", "taken": "lib.ListN.take"})
        self.assertEqual(long.types["Given"], "other")

    def test_traits(self):
        """A trait's own items, and an impl of one with its ghost members, whatever the types' parameters."""
        text = ("trait T {\n    ghost size: { Self → ℕ };\n    fn f(&self) -> u8;\n}\n"
                "impl<'a, F: Fn(u8) -> u8> From<Option<&'a F>> for Given<'_, F> {\n    type Item = u8;\n    ghost use A.{b};\n    ghost gives = { λ x. x };\n\n    fn from(x: u8) -> u8 {\n        x\n    }\n}\n")
        trait, given = rattle.items(text, "here")
        self.assertEqual((trait.kind, trait.name, [one.name for one in trait.items]), ("trait", "T", ["size", "f"]))
        self.assertEqual(trait.items[0].text, "ghost size: { Self → ℕ };")
        self.assertEqual((given.kind, given.name), ("trait impl", "<'a, F: Fn(u8) -> u8> From<Option<&'a F>> for Given<'_, F>"))
        self.assertIn("ghost gives = { λ x. x };", given.text)
        self.assertNotIn("fn from", given.text)
        self.assertEqual([one.within for one in given.items], ["Given"] * 4)
        self.assertEqual([rattle.owner_of(head)[1] for head in ("<'a> Names<'a>", "A for B", "a::A<u8> for &'a mut [T]", "A, B")], ["Names", "B", "[T]", ""])

    def test_unread(self):
        for text in ("union T {}", "fn f( {}", "pub fn f() { ( }", "impl A, B {}", "static X: u8 = 1;", "/* "):
            with self.assertRaises(rattle.Unread, msg=text):
                rattle.items(text, "here")

    def test_libraries(self):
        """What reads or prints, through another crate too, is no library for hosts."""
        lines = "# crates\none:\nface staticlib: one\ntwo: one # programs\nthree: two\n"
        for used, libraries in (("use std::io;", ["face", "one"]), ("use std::{cmp, fs};", ["face", "one"]), ("fn f(rt: HostRuntime) {}", ["face", "one"]),
                                ("// std::io", ["face", "one", "three", "two"]), ("use std::num;", ["face", "one", "three", "two"])):
            top = self.repository({f"{name}/src/lib.rt": used + "\n" if name == "two" else "// None.\n" for name in ("one", "two", "three", "face")})
            (top / "crates.txt").write_text(lines, encoding="utf-8")
            self.assertEqual([folder.name for folder in crates.libraries(top)], libraries, msg=used)
            self.assertEqual(crates.static(top), {"face"})

    def test_lost_file(self):
        with self.assertRaises(rattle.Unread):
            self.public({"one/src/lib.rt": "// None.\n", "one/src/lost.rt": "// Lost.\n"})


class Promises(Case):
    def wrong(self, text, inner=()):
        return list(command("promises").open_ends(self.public({"one/src/lib.rt": text}), set(inner)))

    def page(self, text):
        return command("promises").page(self.public({"one/src/lib.rt": text}), set())

    def test_requires(self):
        exported = '#[unsafe(no_mangle)]\npub extern "C" fn f(n: u8) -> u8\n    requires { n ≡ 7 }\n    ensures { result ≡ n }\n{ n }\n'
        public = exported.replace('#[unsafe(no_mangle)]\n', "").replace('extern "C" ', "")
        self.assertEqual(len(self.wrong(exported)), 1)
        self.assertEqual(len(self.wrong(exported, ["one::f"])), 1)
        self.assertEqual(len(self.wrong(public)), 1)
        self.assertEqual(self.wrong(public, ["one::f"]), [])
        self.assertEqual(len(self.wrong("mod m {\n" + exported + "}\n")), 1)
        self.assertEqual(len(self.wrong(public.replace("requires", "requires small"))), 1)

    def test_ghost_fields(self):
        """A value that its caller makes, and whose ghost field it proves, asks as a `requires` does; a value that the crate alone can make does not."""
        made = "pub struct Rows<'a> {\n    pub rows: &'a [u8],\n    ghost table: { rows.now ≡ all },\n}\n"
        for function, name in (("pub fn f(n: u8, rows: &Rows) -> u8 ensures { result ≡ n } { n }\n", "one::f"),
                               ("pub fn f<T>(n: T, rows: Option<Rows<'_>>) -> T\nwhere\n    T: Copy,\n    ensures { result ≡ n }\n{ n }\n", "one::f"),
                               ("pub fn f<F: Fn(u8) -> u8>(f: F, g: impl Fn(u8) -> u8, rows: Rows) -> u8 ensures { result ≡ 1 } { 1 }\n", "one::f"),
                               ("impl Rows<'_> {\n    pub fn f(self, n: u8) -> u8 ensures { result ≡ n } { n }\n}\n", "one::Rows::f"),
                               ("impl Rows<'_> {\n    pub fn f(&self) -> u8 ensures { result ≡ 1 } { 1 }\n}\n", "one::Rows::f")):
            self.assertEqual(len(self.wrong(made + function)), 1, msg=function)
            self.assertEqual(self.wrong(made + function, [name]), [], msg=function)
            self.assertEqual(len(self.wrong(made.replace("    ghost", "    pub ghost") + function)), 1, msg=function)
            for other in (made.replace("pub rows", "rows"), made.replace("    ghost table: { rows.now ≡ all },\n", "")):
                self.assertEqual(self.wrong(other + function), [], msg=other + function)
        exported = '#[unsafe(no_mangle)]\npub extern "C" fn f(rows: Rows) -> u8 ensures { result ≡ 1 } { 1 }\n'
        self.assertEqual(len(self.wrong(made + exported, ["one::f"])), 1)
        for function in ("pub fn f<F: Fn(u8) -> u8>(f: F) -> Option<Rows<'static>> ensures { result ≡ n } { n }\n", "pub fn f(n: u8) -> Rows<'static> ensures { result ≡ n } { n }\n", "impl Rows<'_> {\n    pub fn f(n: u8) -> u8 ensures { result ≡ n } { n }\n}\n"):
            self.assertEqual(self.wrong(made + function), [], msg=function)

    def test_no_promise(self):
        self.assertEqual(len(self.wrong("pub fn f() {}\n")), 1)
        for ensured, wrong in (("a.old ≡ a.old", 1), ("b.a.new ≡ a.old", 1), ("a.newer ≡ a.old", 1), ("a.new ≡ a.old", 0), ("length (a.new) ≡ 1", 0), ("«a».new ≡ a.old", 0)):
            self.assertEqual(len(self.wrong(f"pub fn f(a: &mut [u8]) ensures {{ {ensured} }} {{}}\n")), wrong, msg=ensured)

    def test_changes_show(self):
        page = self.page(METHOD)
        for old, new in (
            ("result ≡ n", "n ≡ n"), ("        ensures same { result ≡ n }\n", ""), ("n: u8)", "n: u16)"), ("a: u8", "a: u16"), ("ensures same", "ensures it"),
            ("lib.ListN", "other.ListN"), ("    pub fn f", "    fn f"),
        ):
            self.assertIn(old, METHOD)
            self.assertNotEqual(page, self.page(METHOD.replace(old, new)), msg=new)
        for old, new in (("{ n }", "{ n + 0 }"), ("ensures long { result ≡ length n }", "ensures long {\n            result ≡ length n\n        }"),
                         ("    #[tactic(auto, using(crate::proofs::A::one))]\n", ""), ("#![tactic(auto)]\n", "")):
            self.assertIn(old, METHOD)
            self.assertEqual(page, self.page(METHOD.replace(old, new)), msg=new)


class Pages(Case):
    def test_statements(self):
        text = "| `a::f` (inner) | x | `one` (of `two`), `three` |\n| `a::S::g` | x | none: see `f` |\nother. `b`: `four` (with\nwords), `five`. `c` has none."
        found = statements.rows(text)
        self.assertEqual([(row.function, row.inner, row.edits) for row in found], [("a::f", True, ["one", "three"]), ("a::S::g", False, ["f"])])
        self.assertEqual(statements.of_crates(text), [("b", "four"), ("b", "five")])

    def test_rows(self):
        self.assertEqual(rows.rows_in(TABLE), [(1, 0, 0), rows.ILLEGAL, (16, 2, 1)])
        for text in ("", TABLE + TABLE, TABLE.replace("9", "12"), TABLE.replace("\\x10", ""), TABLE.replace("x01", "t")):
            with self.assertRaises(rows.Unread, msg=text):
                rows.rows_in(text)

    def test_names(self):
        self.assertEqual(rows.names_in(NAMES), ["halt", "jump-if", "push-u8"])
        for text in ("", NAMES.replace("∷ []", "++ more"), NAMES.replace('"jump-if"', "jump")):
            with self.assertRaises(rows.Unread, msg=text):
                rows.names_in(text)

    def noticed(self, page, check, altered):
        """A page of docs/ is right, and each altered one is not."""
        text = (crates.TOP / "docs" / page).read_text(encoding="utf-8")
        self.assertEqual(list(check(text)), [])
        for old, new in altered:
            self.assertIn(old, text)
            self.assertTrue(list(check(text.replace(old, new, 1))), msg=new)

    def test_guide(self):
        self.noticed("GUIDE.md", command("pages").instructions, (
            ("inc dec not neg", "inc dec neg not"), ("80 to BF", "81 to BF"), ("| 5B to 7F |", "| 5C to 7F |"),
            ("3C / 56 | jump-imm8 / jump-imm16", "3C / 56 | jump-imm8"), ("| illegal |", "| push-u8 |"), ("| name and meaning |", "| name |"),
        ))

    def test_shapes(self):
        self.noticed("SHAPES.md", command("pages").shapes, (
            ("| 04 | swap | 1 | 2 | 2 |", "| 04 | swap | 1 | 2 | 1 |"), ("| 1A | dec |", "| 1A | inc |"), ("| 5B | illegal | | | |\n", ""),
            ("| C8 | illegal | | | |", "| C8 | push-values | 3 | 0 | 1 |"), ("| FF | push-values | 9 | 0 | 4 |\n", ""),
        ))

    def test_theorems(self):
        said = command("pages").said_of_theorems
        self.assertEqual(list(said("by `decode_of`, `list-max` and `jump-if`, the crate `isa`")), [])
        self.assertEqual(list(said("by `decodes_of`, `decodeOf` and `list-least`")), [f"`{name}` is declared nowhere" for name in ("decodeOf", "decodes_of", "list-least")])


    def test_files(self):
        self.noticed("THEOREMS.md", command("pages").said_of_files, (
            ("| `one_table` |", "| `two_tables` |"), ("| guarantee/proofs/Shapes |", "| guarantee/proofs/Shape |"), ("| guarantee/proofs/Shapes |", "| guarantee/proofs/Tags |"),
        ))


class Edits(Case):
    """A log in logs/ has lines of rt ci, each of which says in the form that the log is named after that a fact could not be shown."""

    def form(self, line):
        told = list(refusals.refusals(line))
        self.assertEqual([(one.crate, one.label) for one in told], [("one", "wrong")], msg=line)
        return told[0].form

    def test_facts(self):
        logs = sorted((HERE / "logs").glob("*.log"))
        self.assertTrue(logs)
        for log in logs:
            text = log.read_text(encoding="utf-8")
            self.assertEqual([one.form for one in refusals.refusals(text)], [log.stem] * text.count("\n"), msg=log.name)

    def test_open(self):
        """What is open is a fact, but that a loop ends of which no measure is known; it is false where the line says so, as far as it goes."""
        fact, false = "what the function ensures holds when it returns (`returns`)", "; the facts known there allow values at which this goal is false"
        cut = OPEN[len(LINE) + len("refused, as it must be: "):] + fact
        self.assertEqual(self.form(OPEN + fact), "open")
        self.assertEqual(self.form(OPEN + fact + false), "refuted")
        self.assertEqual(self.form(OPEN + fact + false[:refusals.CUT - len(cut)]), "refuted")
        self.assertEqual(self.form(OPEN + fact + false[:30]), "open")
        self.assertEqual(self.form(OPEN + fact + "; `search` gave up at one of its limits"), "open")
        self.assertEqual(self.form(OPEN + "the loop ends, by its measure (`loop-more-decreases`)"), "open")
        self.assertIsNone(self.form(OPEN + "the loop ends: rattle tried as its measure how deep `n` is"))

    def test_errors(self):
        for said, form in (
            (FACT, "omega"), ("`omega`: the part `a` of the goal does not follow from what it read", "omega"), ("`omega`: it reads no hypothesis", None),
            ("give a proof of that as the last argument, `simp L t`", "simp"), ("give a proof of that as the last argument, `rw L t`", "rw"),
            ("`rw`: no equation of the list has an instance in the goal `a ≡ b`", "rw"), ("`cc`: the equations do not join `a` and `b`", "cc"),
            ("`search`: no proof of `a ≡ b` was found", "search"), ("computed as far as they go, the first 4096 bytes of the two types are identical", "statement"),
            ("expected type `c.a ≡ c.b`, but this has type `c.a ≡ c.d`", "statement"), ("expected type `mathlib.Core.Path.◌≡◌ c.halve.result (Rattle.halv", "statement"),
            ("expected type `mathlib.Core.List.List ℕ`, but this has type `ℕ`", None), ("this `refuses` lands at index `a` (position 2) but the exp", "statement"),
            ("this `refuses` lands at index `Prim.Native.Nat.ℕ` (position 2) but the exp", None), (NO_NAME, None), ("`x` is not in scope", None), ("", None),
        ):
            self.assertEqual(self.form(ERROR + said), form, msg=said)
        self.assertIsNone(self.form((ERROR + FACT).replace("Answers", "Invariants")))
        self.assertIsNone(self.form((ERROR + FACT).replace("./proofs/f/Answers.antt", "src/lib.rt")))

    def test_said(self):
        """Where two types first differ in what is no value, the error is another than a fact's."""
        for term, form in (
            ("35", "statement"), ("c.before.args.at", "statement"), ("h", "statement"), (".loop.steps", "statement"),
            ("Rattle.a.specs.declared.Pair.TheVariants.Sub", "statement"), ("mathlib.Core.List.[]", "statement"), ("mathlib.Core.List.◌∷◌ x y", "statement"),
            ("Prim.Native.Nat.◌/◌", "statement"), ("mathlib.Core.Path.◌≡◌", None), ("mathlib.Core.Logic.◌⊎◌", None),
            ("Prim.Native.Nat.ℕ", None), ("mathlib.Core.List.List", None), ("Rattle.a.proofs.S.the-type", None), ("(borrow.Table.Rows.whole x).Mod", None),
            ("mir.Syntax.w8", None),
        ):
            self.assertEqual(self.form(DIFFER.format(term)), form, msg=term)
        begun = DIFFER.partition("{")[0]
        self.assertEqual(self.form(begun + "(c.args.first * 3"), "statement")
        # CUT characters of what was said, and what they differ in has no end
        cut = lambda term: (begun + term)[:len(LINE) + len("refused, as it must be: ") + refusals.CUT]
        self.assertEqual(self.form(cut("Rattle.alu.specs.declared.Pair.TheVariants.Sub")), "cut")
        self.assertIsNone(self.form(cut("mir.Syntax.w8.and.what.follows.it.in.the.line")))
        self.assertIsNone(self.form(begun + "Prim"))
        self.assertEqual(self.form(begun + "Path` (expected), at the start, and t"), "statement")
        self.assertIsNone(self.form(begun + "Path` (expected), right after `x`"))
        for term, form in (
            ("Path ℕ 0 1", "statement"), ("a.cells ≤ 1024", "statement"), ("m.Logic.◌⊎◌ (Path ℕ k 6) (Path ℕ k 7)", "statement"), ("(a ≤ 1) × (b ≡ 2)", "statement"),
            ("m.Logic.◌⊎◌ State (Path ℕ k 6)", None), ("mathlib.Core.List.List ℕ", None), ("Rattle.m.specs.declared.State.State", None),
        ):
            self.assertEqual(self.form(ARE.format(term)), form, msg=term)

    def test_not_refused(self):
        """What is refused for a limit, or because a name went, what is bad, not tried or not refused, and what says nothing."""
        fact = ERROR[len(LINE) + len("refused, as it must be: "):] + FACT
        self.assertEqual(self.form(LINE + "refused, as it must be: " + fact), "omega")
        for said in (LIMIT + fact, GONE + fact, "refused, as it must be", "BAD EDIT: it has no 'old:' and 'new:' pair", "NOT TRIED: its check was killed", "NOT REFUSED: the crate is still proved with this edit"):
            self.assertIsNone(self.form(LINE + said), msg=said)
        self.assertEqual(list(refusals.refusals("rt: one proved\nlogic=not-proved\n1 passed, 0 failed")), [])

    def test_told(self):
        """Each edit has one line, and it says a fact."""
        of_refusal = command("edits").of_refusal
        said = lambda *lines: list(refusals.refusals("\n".join(lines)))
        self.assertIsNone(of_refusal(said(ERROR + FACT)))
        self.assertIsNone(of_refusal(said(ERROR + FACT, ERROR + FACT)))
        for lines in ((), (ERROR + NO_NAME,), (ERROR + FACT, ERROR + NO_NAME)):
            self.assertTrue(of_refusal(said(*lines)), msg=lines)

    def test_bodies(self):
        top = self.repository({"one/src/lib.rt": BODIES, "two/src/lib.rt": "// None.\n", "two/specs/A.antt": "a = 1\n", "one/specs/A.antt": "a = 1\n"})
        for crate, pairs, good in (
            ("one", [("src/lib.rt", "    n + 0", "    n + 1")], True), ("one", [("src/lib.rt", "u8 = 3", "u8 = 4")], True),
            ("one", [("src/lib.rt", "result ≡ n", "result ≡ result")], False), ("one", [("src/lib.rt", "n ≡ 1", "n ≡ 2")], False),
            ("one", [("src/lib.rt", "(n: u8)", "(n: u16)")], False), ("one", [("src/lib.rt", "// Twice.", "// Once.")], False),
            ("one", [("src/lib.rt", "n", "m")], False), ("one", [("specs/A.antt", "a = 1", "a = 2")], False),
            ("one", [], False), ("two", [("specs/A.antt", "a = 1", "a = 2")], True), ("two", [("src/lib.rt", "None", "No")], False),
        ):
            edit = edits.Edit(crate, "edit", tuple(pairs))
            if good:
                edits.check(edit, top)
            else:
                with self.assertRaises(edits.Bad, msg=pairs):
                    edits.check(edit, top)


if __name__ == "__main__":
    unittest.main()
