"""Tests of tools/placed: it lays khx_run so that the head of its loop is in one line, and touches nothing else."""
import os
import pathlib
import platform
import shutil
import subprocess
import tempfile
import unittest

PLACED = pathlib.Path(__file__).resolve().parent.parent / "placed"
# Two jumps lead to the head, which ends with the first jump by a table behind it; one leads elsewhere, and a jump by a table stands before it.
RUN = """.section .text.khx_run,"ax",@progbits
.p2align 4
.globl khx_run
khx_run:
    jmp *%rbx
    .skip BEFORE - 2, 0x90
1:  decl %eax
    .skip HEAD, 0x90
    jmp *%rdx
2:  jmp 1b
    jmp 2b
    jmp 1b
    jmp *%rcx
"""


def run(before, head):
    """A run whose head begins after so many bytes and has so many between its first instruction and its jump, four bytes more in all."""
    return RUN.replace("BEFORE", str(before)).replace("HEAD", str(head))


def clang():
    """The kit's, which compiles for x86-64."""
    page = subprocess.run(["rt", "doc"], check=True, capture_output=True, text=True).stdout.strip()
    return pathlib.Path(page).parent / "toolchain" / "bin" / "clang"


class Placed(unittest.TestCase):
    def assembled(self, text):
        """The object of a source."""
        folder = tempfile.TemporaryDirectory()
        self.addCleanup(folder.cleanup)
        source = pathlib.Path(folder.name) / "face.s"
        source.write_text(text, encoding="utf-8")
        subprocess.run([clang(), "--target=x86_64-unknown-linux-gnu", "-c", source, "-o", source.with_suffix(".o")], check=True)
        return source.with_suffix(".o")

    def lies(self, object_):
        return subprocess.run([PLACED, "--lies", object_], check=False).returncode == 0

    def place(self, object_):
        """How far into its section the run begins."""
        nm = "nm" if platform.machine() == "x86_64" else "x86_64-linux-gnu-nm"
        words = subprocess.run([nm, "--format=posix", object_], check=True, capture_output=True, text=True).stdout.split()
        return int(words[words.index("khx_run") + 2], 16)

    def laid(self, before, head, *options):
        """Where a run is laid."""
        run_ = self.assembled(run(before, head))
        subprocess.run([PLACED, *options, run_], check=True)
        self.assertTrue(self.lies(run_))
        return self.place(run_)

    def test_the_run_is_laid_at_the_first_place_that_keeps_its_head_in_a_line(self):
        self.assertEqual(self.laid(64, 60), 0)
        self.assertEqual(self.laid(20, 40), 0)
        self.assertEqual(self.laid(21, 40), 48)
        self.assertEqual(self.laid(40, 44), 32)
        self.assertEqual(self.laid(62, 44), 16)

    def test_no_jump_of_the_head_crosses_or_ends_at_a_multiple_of_32_where_a_place_avoids_it(self):
        # the jump would end at 64; at 48 it does not
        self.assertEqual(self.laid(20, 40, "--clear"), 48)
        self.assertEqual(self.laid(20, 38, "--clear"), 0)
        # a comparison and its jump, six bytes from 30 on, would cross 32; at 16 they do not
        compared = run(20, 36).replace("1:  decl %eax\n", "1:  decl %eax\n    .skip 8, 0x90\n    cmpl $90, %eax\n    jae 2f\n").replace(".skip 36", ".skip 20")
        object_ = self.assembled(compared)
        subprocess.run([PLACED, "--clear", object_], check=True)
        self.assertTrue(self.lies(object_))
        self.assertNotEqual(self.place(object_), 0)

    def test_it_is_laid_elsewhere_where_none_of_the_four_places_will_do(self):
        self.assertEqual(self.laid(8, 55), 56)
        self.assertEqual(self.laid(20, 60), 44)

    def test_a_head_across_two_lines_is_noticed(self):
        self.assertFalse(self.lies(self.assembled(run(40, 44))))
        self.assertFalse(self.lies(self.assembled(run(40, 44).replace(".p2align 4", ".p2align 6"))))

    def test_a_place_without_its_alignment_is_noticed(self):
        self.assertTrue(self.lies(self.assembled(run(2, 44).replace(".p2align 4", ".p2align 6"))))
        self.assertFalse(self.lies(self.assembled(run(2, 44))))

    def test_a_head_that_no_place_keeps_in_a_line_is_refused(self):
        for text in [run(2, 61), run(2, 44).replace("jmp *", "notq ")]:
            refused = subprocess.run([PLACED, self.assembled(text)], check=False, capture_output=True, text=True)
            self.assertEqual(refused.returncode, 1)
            self.assertIn("no place keeps the head of khx_run's loop in one line", refused.stderr)

    def test_an_object_without_the_run_stays_as_it_is(self):
        other = self.assembled(run(2, 44).replace("khx_run", "khx_list"))
        before = other.read_bytes()
        subprocess.run([PLACED, other], check=True)
        self.assertEqual(other.read_bytes(), before)
