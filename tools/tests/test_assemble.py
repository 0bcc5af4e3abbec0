"""Tests of tools/assemble: what a source gives, what is said of a wrong one, and what becomes of the files."""
import os
import pathlib
import pty
import subprocess
import tempfile
import unittest

import assembly

TOOLS = pathlib.Path(__file__).resolve().parent.parent
EXAMPLES = TOOLS.parent / "examples"

# one wrong line, and the cause that is told
LINES = {
    "Bad:": "Bad is no name: a name has small letters, digits and _, and begins with no digit, as bad",
    "bad-length: halt": "bad-length is no name: a name has small letters, digits and _, and begins with no digit, as bad_length",
    "2nd:": "2nd is no name: a name has small letters, digits and _, and begins with no digit, as _2nd",
    "bad length:": "bad length is no name: a name has small letters, digits and _, and begins with no digit, as bad_length",
    ": halt": "a name is missing before :",
    "Own = 3": "Own is no name: a name has small letters, digits and _, and begins with no digit, as own",
    "= 3": "a name is missing before =",
    "own =": "a VALUE is missing behind =",
    "own = 1 2": "one VALUE stands behind =, and here are 2",
    "own = here + 2": "a VALUE has no blanks in it, as here+2, and begins with no sign",
    "own = later": "later is not defined above",
    "here = 5": "here is defined twice: first at s.txt:1",
    "here: halt": "here is defined twice: first at s.txt:1",
    "push-u8 -1": "a VALUE begins with no sign: -1 in 16 bits is $FFFF",
    "push-u8 -here": "a VALUE begins with no sign",
    "push-u8 64": "64 does not fit: push-u8 takes 0 to 63, push-values up to 65535",
    "push-u8": "push-u8 takes one operand, and none is here",
    "push-u8 1 2": "push-u8 takes one operand, and 2 are here",
    "halt 1": "halt takes no operand, and one is here",
    "push-values": "push-values takes 1 to 4 operands, and none is here",
    "push-values 1 2 3 4 5": "push-values takes 1 to 4 operands, and 5 are here",
    "byte": "byte takes one operand or more, and none is here",
    "push-values $5": "$5: in push-values the hex digits say how wide a value is: two for one byte, four for two",
    "push-values $005": "$005: in push-values the hex digits say how wide a value is: two for one byte, four for two",
    "push-values 1, 2": "1,: blanks stand between operands, and a number has no comma in it",
    "push-values 70000": "70000 does not fit: push-values takes 0 to 65535",
    "word 65,535": "65,535: blanks stand between operands, and a number has no comma in it",
    "ld-u16-imm8 here + 12": "a VALUE has no blanks in it, as here+12, and begins with no sign",
    "ld-u16-imm8 here -12": "a VALUE has no blanks in it, as here-12, and begins with no sign",
    "ld-u16-imm8 here+": "here+ has a sign with nothing behind it",
    "ld-u16-imm8 here++1": "here++1 has a sign with nothing behind it",
    "ld-u16-imm8 0x10": "0x10 is no decimal number: hex digits stand behind a $, as $10",
    "ld-u16-imm8 1F": "1F is no decimal number: hex digits stand behind a $, as $1F",
    "ld-u16-imm8 $1G": "$1G: behind $ stand hex digits, and nothing else",
    "ld-u16-imm8 'a'": "'a' is neither a number nor a name: a name has small letters, digits and _, and begins with no digit",
    "ld-u16-imm8 " + "9" * 5000: "a number has at most 20 digits",
    "ld-u16-imm8 hear": "hear is not defined: did you mean here?",
    "ld-u16-imm8 Here": "Here is not defined: did you mean here?",
    "ld-u16-imm8 gone": "gone is not defined",
    "ld-u16-im8 3": "no such instruction: did you mean ld-u16-imm8 or ld-u16-imm16 or ld-u16-offs-imm8?",
    "HALT": "no such instruction: did you mean halt?",
    "Include s.txt": "no such instruction: did you mean include?",
    "good_table": "no such instruction: a label is written good_table:",
    "; good": "no such instruction: a comment begins with #",
    "// good": "no such instruction: a comment begins with #",
    "jump-imm8 far": "far, which is 300, does not fit: jump-imm8 takes 0 to 255, jump-imm16 up to 65535",
    "st-u8--offs-imm8 far": "far, which is 300, does not fit: st-u8--offs-imm8 takes 0 to 255, st-u8--offs-imm16 up to 65535",
    "shl-imm4 16": "16 does not fit: shl-imm4 takes 0 to 15",
    "byte 256": "256 does not fit: byte takes 0 to 255, word up to 65535",
    "add-imm16 0-1": "0-1, which is -1, does not fit: add-imm16 takes 0 to 65535, and -1 in 16 bits is $FFFF",
    "add-imm16 budget": "budget, which is 20000000, does not fit: add-imm16 takes 0 to 65535",
    "0001 halt": "the address here is 0000",
    "0000": "no instruction stands behind the address",
    "include": "include takes a file's name",
    "include s.txt": "s.txt would include itself",
    "halt\0": "a byte 00 is no text",
}
AROUND = "here:\nfar = 300\nbudget = 20000000\n{}\nlater = 1\n"


class Assembling(unittest.TestCase):
    def setUp(self):
        folder = tempfile.TemporaryDirectory()
        self.addCleanup(folder.cleanup)
        self.folder = pathlib.Path(folder.name)

    def write(self, name, text):
        path = self.folder / name
        path.parent.mkdir(exist_ok=True)
        path.write_bytes(text if isinstance(text, bytes) else text.encode("utf-8"))

    def ran(self, *words, **more):
        """The exit status of the command, what it gave and what it said."""
        ran = subprocess.run([TOOLS / "assemble", *words], cwd=self.folder, capture_output=True, check=False, **more)
        return ran.returncode, ran.stdout, ran.stderr.decode("utf-8")

    def of(self, text):
        self.write("s.txt", text)
        return self.ran("s.txt")

    def gives(self, text, program):
        self.assertEqual(self.of(text), (0, bytes.fromhex(program), ""))


class Programs(Assembling):
    def test_instructions(self):
        self.gives("push-u8 5\npush-u8 $3\nsub\nhalt\n", "85 83 15 00")
        self.gives("shr-imm4 15\njump-imm16 258\nextcall-imm16 $ffff\n", "32 0F 56 02 01 5A FF FF")
        self.gives("byte 1 $2 3\nword 1 $203\n", "01 02 03 01 00 03 02")

    def test_names(self):
        self.gives("a = 2\nb = a+3-1\npush-u8 b\njump-imm8 end-a+c\nend: halt\nc = 1\n", "84 3C 02 00")
        self.gives("one: two:halt\nthree : jump-imm8 three\n", "00 3C 01")

    def test_the_width_of_pushed_values(self):
        self.gives("push-values $05 $0005 255 256\n", "EB 05 05 00 FF 00 01")
        self.gives("push-values end\nhalt\nend:\n", "C4 04 00 00")
        self.gives("start:\npush-values start later\njump-imm8 end\nend:\nlater = 7\n", "CD 00 00 07 00 3C 07")

    def test_addresses(self):
        self.gives("0000 push-u8 $05\nend: 0001 halt\n", "85 00")

    def test_every_form_of_text(self):
        for text in ("push-u8 1\r\nhalt\r\n", "\tpush-u8\t1\n\thalt\t# x\n", "\ufeffpush-u8 1\nhalt", "push-u8 1\rhalt", "push-u8 1 # ü\n\n\nhalt"):
            self.gives(text, "81 00")
        self.gives("", "")

    def test_an_include_has_code_too(self):
        self.write("part.txt", "own = 32\n        jump-imm8-if good\n")
        self.gives("push-u8 own\ninclude part.txt\nhalt\ngood: halt\n", "A0 3D 04 00 00")

    def test_standard_input(self):
        self.write("part.txt", "halt\n")
        self.assertEqual(self.ran("-", input=b"include part.txt\n"), (0, b"\0", ""))
        self.assertEqual(self.ran("-", input=b"\nhat\n"), (1, b"", "assemble: standard input:2: hat: no such instruction: did you mean halt?\n"))

    def test_the_longest_program(self):
        self.gives("halt\n" * 16384, "00" * 16384)
        status, program, said = self.of("halt\n" * 16383 + "add-imm8 1\n")
        self.assertEqual((status, program), (1, b""))
        self.assertEqual(said, "assemble: s.txt:16384: add-imm8 1: with this the program is over 16,384 bytes, and none may be\n")

    def test_the_rules(self):
        for program in (EXAMPLES / "rules").glob("*.rex"):
            self.assertEqual(self.ran(program.with_suffix(".txt")), (0, program.read_bytes(), ""))


class Causes(Assembling):
    def test_each_is_told(self):
        for line, cause in LINES.items():
            with self.subTest(line):
                status, program, said = self.of(AROUND.format(line))
                self.assertEqual((status, program), (1, b""))
                self.assertEqual(said.count("\n"), 1)
                self.assertTrue(said.startswith("assemble: s.txt:4: "), said)
                self.assertEqual(said[-len(cause) - 3:], f": {cause}\n")

    def test_a_long_line_is_cut(self):
        self.assertLess(len(self.of(f"halt {'x' * 5000}\n")[2]), 200)


class Included(Assembling):
    def says(self, status, said):
        self.assertEqual(self.ran("rules/s.txt"), (status, b"", f"assemble: {said}\n"))

    def test_an_error_names_its_own_file(self):
        self.write("rules/s.txt", "\ninclude part.txt\nhalt\n")
        for line, cause in (("halt 1", "halt takes no operand, and one is here"), ("jump-imm8 gone", "gone is not defined"),
                            ("byte 256", "256 does not fit: byte takes 0 to 255, word up to 65535")):
            self.write("rules/part.txt", f"# a part\n{line}    # wrong\n")
            self.says(1, f"rules/part.txt:2: {line}: {cause} (included by rules/s.txt:2)")

    def test_an_error_behind_an_include_names_the_source(self):
        self.write("rules/s.txt", "include part.txt\njump-imm8 gone\n")
        self.write("rules/part.txt", "halt\nhalt\n")
        self.says(1, "rules/s.txt:2: jump-imm8 gone: gone is not defined")

    def test_a_name_defined_in_both(self):
        self.write("rules/s.txt", "include part.txt\nown = 1\n")
        self.write("rules/part.txt", "\nown = 2\n")
        self.says(1, "rules/s.txt:2: own = 1: own is defined twice: first at rules/part.txt:2")

    def test_through_others(self):
        self.write("rules/s.txt", "include part.txt\n")
        self.write("rules/part.txt", "\ninclude ../other.txt\n")
        self.write("other.txt", "\n\nhat\n")
        self.says(1, "rules/../other.txt:3: hat: no such instruction: did you mean halt? (included by rules/part.txt:2, by rules/s.txt:1)")
        self.write("other.txt", "include rules/s.txt\n")
        self.says(1, "rules/../other.txt:1: include rules/s.txt: rules/../rules/s.txt would include itself (included by rules/part.txt:2, by rules/s.txt:1)")

    def test_too_deep(self):
        for number in range(40):
            self.write(f"rules/{number}", f"include {number + 1}\n")
        self.write("rules/s.txt", "include 0\n")
        self.assertIn("rules/31:1: include 32: files are included more than 32 deep", self.ran("rules/s.txt")[2])

    def test_what_cannot_be_read(self):
        self.write("rules/s.txt", "halt\ninclude part.txt\n")
        self.says(2, "rules/s.txt:2: include part.txt: rules/part.txt: No such file or directory")
        self.write("rules/part.txt", b"halt\n# \xfc\n")
        self.says(2, "rules/part.txt:2: byte FC is not UTF-8 text (included by rules/s.txt:2)")
        (self.folder / "rules" / "part.txt").unlink()
        (self.folder / "rules" / "part.txt").mkdir()
        self.says(2, "rules/s.txt:2: include part.txt: rules/part.txt: Is a directory")


class Command(Assembling):
    def says(self, words, said):
        self.assertEqual(self.ran(*words), (2, b"", f"assemble: {said}\n"))

    def test_help(self):
        for word in ("--help", "-h"):
            status, said, error = self.ran(word)
            self.assertEqual((status, error), (0, ""))
            self.assertIn(b"usage: assemble SOURCE [-o FILE]\n", said)

    def test_usage(self):
        self.says([], "no SOURCE is given: see assemble --help")
        self.says(["a", "b"], "more than one SOURCE is given: see assemble --help")
        self.says(["--foo"], "there is no option --foo: see assemble --help")
        self.says(["a", "-o"], "-o takes a FILE: see assemble --help")

    def test_what_cannot_be_read(self):
        self.says(["gone.txt"], "gone.txt: No such file or directory")
        self.says(["."], ".: Is a directory")
        self.says(["/dev/zero"], "/dev/zero: over 4,194,304 bytes, too long for a source")
        self.write("s.txt", b"\xef\xbb\xbfhalt\n\xff")
        self.says(["s.txt"], "s.txt:2: byte FF is not UTF-8 text")
        self.write("s.rex", b"\x34\x00\xbf\x00")
        self.says(["s.rex"], "s.rex:1: byte BF is not UTF-8 text: is it a program? khx list shows one")

    def test_a_terminal(self):
        self.write("s.txt", "halt\n")
        ours, theirs = pty.openpty()
        self.addCleanup(os.close, ours)
        self.addCleanup(os.close, theirs)
        ran = subprocess.run([TOOLS / "assemble", "s.txt"], cwd=self.folder, stdout=theirs, stderr=subprocess.PIPE, check=False)
        self.assertEqual((ran.returncode, ran.stderr), (2, b"assemble: a program is no text for a terminal: name a file with -o\n"))

    def test_an_output_that_takes_nothing(self):
        self.write("s.txt", "halt\n")
        with open("/dev/full", "wb") as full:
            ran = subprocess.run([TOOLS / "assemble", "s.txt"], cwd=self.folder, stdout=full, stderr=subprocess.PIPE, check=False)
        self.assertEqual((ran.returncode, ran.stderr), (2, b"assemble: standard output: No space left on device\n"))
        self.says(["s.txt", "-o", "/dev/full"], "/dev/full: No space left on device")


class Output(Assembling):
    def files(self):
        return sorted(path.name for path in self.folder.iterdir())

    def test_a_file_is_written(self):
        self.write("s.txt", "halt\n")
        self.assertEqual(self.ran("s.txt", "-o", "p.rex"), (0, b"", ""))
        self.assertEqual((self.folder / "p.rex").read_bytes(), b"\0")
        self.assertEqual(self.files(), ["p.rex", "s.txt"])
        self.assertEqual(self.ran("-o", "-", "s.txt"), (0, b"\0", ""))

    def test_a_failure_leaves_no_file(self):
        self.write("s.txt", "halt\nhalt 1\n")
        self.assertEqual(self.ran("s.txt", "-o", "p.rex")[0], 1)
        self.assertEqual(self.files(), ["s.txt"])

    def test_a_failure_leaves_a_file_as_it_was(self):
        self.write("s.txt", "halt\njump-imm8 gone\n")
        self.write("p.rex", "as it was")
        self.assertEqual(self.ran("s.txt", "-o", "p.rex")[0], 1)
        self.assertEqual((self.folder / "p.rex").read_text(), "as it was")

    def test_links_and_modes_stay(self):
        self.write("s.txt", "halt\n")
        self.write("p.rex", "as it was")
        (self.folder / "p.rex").chmod(0o640)
        (self.folder / "link").symlink_to("p.rex")
        self.assertEqual(self.ran("s.txt", "-o", "link")[0], 0)
        self.assertTrue((self.folder / "link").is_symlink())
        self.assertEqual((self.folder / "p.rex").read_bytes(), b"\0")
        self.assertEqual((self.folder / "p.rex").stat().st_mode & 0o777, 0o640)

    def test_the_source_is_not_written_over(self):
        self.write("s.txt", "halt\n")
        self.assertEqual(self.ran("s.txt", "-o", "./s.txt"), (2, b"", "assemble: ./s.txt is the source: name another file with -o\n"))
        self.assertEqual((self.folder / "s.txt").read_text(), "halt\n")

    def test_a_folder_that_is_not_there(self):
        self.write("s.txt", "halt\n")
        self.assertEqual(self.ran("s.txt", "-o", "gone/p.rex"), (2, b"", "assemble: gone/p.rex: No such file or directory\n"))


class Constants(Assembling):
    def test_names(self):
        self.write("part.txt", "own = 32\nbudget = 20000000\n")
        self.write("s.txt", "include part.txt\nstart: hat 1 2 3\nat = own+$10\nplace = start+1\nbehind = place\nlast = at-1\n")
        self.assertEqual(assembly.names(self.folder / "s.txt"), {"own": 32, "budget": 20_000_000, "at": 48, "last": 47})

    def test_wrong_ones(self):
        self.write("s.txt", "a = b\n")
        with self.assertRaisesRegex(assembly.Failure, "s.txt:1: a = b: b is not defined above"):
            assembly.names(self.folder / "s.txt")

    def test_the_preamble(self):
        names = assembly.names(EXAMPLES / "rules" / "preamble.txt")
        self.assertEqual((names["length"], names["lent"], names["table"], names["budget"]), (4, 12, 64, 20_000_000))


if __name__ == "__main__":
    unittest.main()
