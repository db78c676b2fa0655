"""tools/board.py; the C files of bindings/board, which are what it writes; and bindings/c/board.c, which holds them to
the archive."""
import contextlib
import ctypes
import functools
import io
import os
import pathlib
import shutil
import subprocess
import sys
import tempfile
import unittest
from fractions import Fraction
from unittest import mock

ROOT = pathlib.Path(__file__).resolve().parent.parent
sys.path[:0] = [str(ROOT / "tools"), str(ROOT / "checks")]
import board   # noqa: E402

FILES = ROOT / "bindings/board"
WARNED = ["-pedantic", "-Wall", "-Wextra", "-Wconversion", "-Werror", "-O2"]
WHOLE, ONE, ALL = 2**30, 2**20, 2**32
NO_COMPILERS = "put gcc and g++ on PATH, so that the C files can be compiled"
NO_ARCHIVE = ("put the kit's bin folder on PATH, or set IISPH_ARCHIVE_DIR to the folder that has the archives, so that "
              "the board's lookup can be held to the proved one")


@functools.cache
def table(): return board.entries()


def called(*arguments):
    """Status and both outputs of the tool."""
    with contextlib.redirect_stdout(io.StringIO()) as out, contextlib.redirect_stderr(io.StringIO()) as err:
        status = board.main(list(arguments))
    return status, out.getvalue(), err.getvalue()


class InAFolder(unittest.TestCase):
    def setUp(self):
        folder = tempfile.TemporaryDirectory()
        self.addCleanup(folder.cleanup)
        self.folder = pathlib.Path(folder.name)

    def done(self, *words):
        """What a program says that must end well."""
        ran = subprocess.run([*map(str, words)], capture_output=True, text=True, cwd=ROOT)
        self.assertEqual((ran.returncode, ran.stderr), (0, ""), ran.stdout)
        return ran.stdout


class Table(InAFolder):
    def test_rule(self):
        self.assertEqual(len(table()), 1025)
        for k in range(513):
            self.assertEqual(table()[k], WHOLE + 6 * k**3 - 6144 * k**2, k)
        for k in range(512, 1025):
            self.assertEqual(table()[k], 2 * (1024 - k)**3, k)

    def test_nothing_overflows(self):
        falls = [here - following for here, following in zip(table(), table()[1:])]
        self.assertTrue(0 < min(falls) and max(falls) <= 2**21)
        self.assertLess(max(falls) * 1023 + 1023, 2**31)

    def test_a_file_without_it(self):
        text = board.TABLE.read_text()
        for wrong in ("", text.replace(" 54,", ""), text.replace(" 54,", " 54, 53,"),
                      text.replace(" 54,", " -54,"), text.replace("u32; 1025", "u64; 1025"),
                      text.replace("];", ""), text.replace("pub const", "// pub const")):
            self.assertNotEqual(wrong, text)
            (self.folder / "table.rt").write_text(wrong)
            with mock.patch.object(board, "TABLE", self.folder / "table.rt"):
                for words in (["table"], ["weight", "1"], ["write", str(self.folder)]):
                    self.assertEqual(called(*words), (1, "", (
                        "tools/board.py: crates/weight_table/src/table.rt has no list ENTRIES of 1025 numbers; "
                        "restore it, as in: git checkout crates/weight_table/src/table.rt\n")))
        self.assertEqual(os.listdir(self.folder), ["table.rt"])
        with mock.patch.object(board, "TABLE", self.folder / "none.rt"):
            self.assertIn("check the file's name", called("table")[2])


class Lookup(unittest.TestCase):
    def test_by_hand(self):
        for q, weight in ((0, WHOLE), (1, WHOLE - 6), (1023, WHOLE - 6133), (1024, WHOLE - 6138), (1025, 1073735668),
                          (ONE // 2, WHOLE // 4), (ONE * 3 // 4, WHOLE // 32),
                          (ONE - 1024, 2), (ONE - 1023, 1), (ONE - 512, 1), (ONE - 511, 0), (ONE - 1, 0), (ONE, 0),
                          (ONE + 1, 0), (2**31, 0), (ALL - 1, 0)):
            self.assertEqual(board.lookup(table(), q), weight, q)

    def test_exact_by_hand(self):
        for q, shape in (("0", "1"), ("1/4", "23/32"), ("1/2", "1/4"), ("3/4", "1/32"), ("1", "0"), ("5/4", "0"),
                         ("3/8", "121/256"), ("7/8", "1/256")):
            self.assertEqual(board.exact(int(Fraction(q) * ONE)), Fraction(shape) * WHOLE, q)
        self.assertEqual(board.exact(1), WHOLE - Fraction(6, 2**10) + Fraction(6, 2**30))
        self.assertEqual(board.exact(ONE - 1), Fraction(2, 2**30))

    def test_within_its_bound(self):
        def parts(q): return 2**60 - 6 * 2**20 * q**2 + 6 * q**3 if q <= ONE // 2 else 2 * (ONE - q)**3
        for q in range(0, ONE + 1, 997):
            self.assertEqual(board.exact(q), Fraction(parts(q), 2**30))
        errors = [board.lookup(table(), q) * 2**30 - parts(q) for q in range(ONE + 1)]
        self.assertTrue(-1537 * 2**30 <= min(errors) < -1534 * 2**30 and 767 * 2**30 < max(errors) < 768 * 2**30)


class Commands(InAFolder):
    def test_weight(self):
        self.assertEqual(called("weight", "0", "0x0600", "700001", "1048575", "0XFFFFFFFF", "00524288"), (0, """\
         q      weight  exact weight                    error
         0  1073741824  1073741824                      0
      1536  1073726491  1073728020+1/4                  -1529-1/4
    700001    78889925  78889432+457607391/536870912    492+79263521/536870912
   1048575           0  1/536870912                     -1/536870912
4294967295           0  0                               0
    524288   268435456  268435456                       0
""", ""))

    def test_table(self):
        status, out, err = called("table")
        self.assertEqual((status, err), (0, ""))
        self.assertEqual([[int(word) for word in line.split()] for line in out.splitlines()],
                         [[k, entry] for k, entry in enumerate(table())])

    def test_write(self):
        self.assertEqual(called("write", str(self.folder)), (0, "", ""))
        made = self.folder / "made"
        made.mkdir()
        with mock.patch.object(board, "FOLDER", made):
            self.assertEqual(called("write"), (0, "", ""))
        self.assertEqual(board.FOLDER, FILES)
        self.assertEqual(sorted(os.listdir(FILES)), sorted(os.listdir(made)))
        for path in FILES.iterdir():
            for folder in self.folder, made:
                self.assertTrue((folder / path.name).read_bytes() == path.read_bytes(),
                                "%s is not what tools/board.py write makes" % path)

    def test_lengths(self):
        for name, columns in ("iisph_board.h", 100), ("iisph_board.c", 120):
            lines = (FILES / name).read_text(encoding="ascii").splitlines()
            self.assertLess(len(lines), 300)
            self.assertLessEqual(max(map(len, lines)), columns)

    def test_every_message_says_what_to_do(self):
        for word in ("-1", "-0x1", "-.5", "0.5", "1e3", "4294967296", "0x100000000", "9" * 5000, "x", "", "0x", "1_0",
                     "٣", " 1", "1\n"):
            self.assertEqual(called("weight", "7", word), (2, "", (
                "tools/board.py: %s is no q; give a whole number of units of 2^-20 from 0 to 4294967295, as in: "
                "tools/board.py weight 524288 for a q of 0.5\n" % word)))
        for words, piece in ((["weight"], "this is what it takes: tools/board.py weight Q .."),
                             (["weight", "--hex", "1"], "`weight` has no option --hex; this is what it takes"),
                             (["table", "1"], "`table` got 1 argument"),
                             (["write", "a", "b"], "this is what it takes: tools/board.py write [FOLDER]"),
                             (["write", str(self.folder / "none")], "iisph_board.h: No such file or directory; check"),
                             (["look"], "there is no command look; here is how to use it"), ([], "give a command")):
            status, out, err = called(*words)
            self.assertEqual((status, out, piece in err), (2, "", True), err)


@unittest.skipUnless(shutil.which("gcc") and shutil.which("g++"), NO_COMPILERS)
class CFiles(InAFolder):
    def compiled(self, *words): return self.done(*words, *WARNED, "-I", FILES)

    def loaded(self):
        """As a library that takes nothing from any other."""
        library = self.folder / "board.so"
        self.compiled("gcc", "-std=c99", "-ffreestanding", "-fPIC", "-shared", "-nostdlib", "-Wl,-z,defs",
                      FILES / "iisph_board.c", "-o", library)
        return ctypes.CDLL(str(library))

    def test_table(self):
        self.assertEqual(list((ctypes.c_uint32 * 1025).in_dll(self.loaded(), "iisph_board_entries")), table())

    def test_lookup(self):
        lookup = self.loaded().iisph_board_lookup
        lookup.argtypes, lookup.restype = [ctypes.c_uint32], ctypes.c_uint32
        beyond = [*range(ONE + 1, ALL, 2**16 + 1), *range(ALL - 1024, ALL), *(2**n for n in range(21, 32))]
        wrong = [q for q in [*range(ONE + 1), *beyond] if lookup(q) != board.lookup(table(), q)]
        self.assertEqual(wrong[:9], [])

    def test_nothing_beyond_the_table_is_read(self):
        program = self.folder / "program.c"
        program.write_text('#include "iisph_board.h"\n'
                           "int main(void) { uint32_t q = 0; while (q < 1049601) (void)iisph_board_lookup(q++); }\n")
        self.compiled("gcc", "-std=c99", "-fsanitize=undefined", "-fsanitize-undefined-trap-on-error", program,
                      FILES / "iisph_board.c", "-o", self.folder / "program")
        self.done(self.folder / "program")

    def summed(self, old="", new=""):
        """What bindings/c/board_sum.c prints of the C file with a text replaced."""
        wrong, program = self.folder / "wrong.c", self.folder / "sum"
        wrong.write_text((FILES / "iisph_board.c").read_text().replace(old, new, 1))
        self.compiled("gcc", "-std=c99", ROOT / "bindings/c/board_sum.c", wrong, "-o", program)
        return self.done(program)

    def test_sum(self):
        self.assertEqual((self.summed(), *called("sum")), ("3e207e55\n", 0, "3e207e55\n", ""))
        for old, new in ((" 54, ", " 55, "), ("f + UINT32_C(1023)", "f"), ("return 0", "return q == UINT32_MAX")):
            self.assertNotEqual(self.summed(old, new), "3e207e55\n", new)

    def test_from_c_plus_plus(self):
        program, made = self.folder / "program.cpp", self.folder / "made.o"
        program.write_text('#include "iisph_board.h"\n#include <iostream>\n'
                           "int main() { std::cout << iisph_board_lookup(1536) << ' ' << iisph_board_entries[1]; }\n")
        for language in ("gcc", "-std=c99"), ("g++", "-x", "c++", "-std=c++11"):
            self.compiled(*language, "-c", FILES / "iisph_board.c", "-o", made)
            self.compiled("g++", "-std=c++11", program, made, "-o", self.folder / "program")
            self.assertEqual(self.done(self.folder / "program"), "1073726491 1073735686")


def archive():
    """The archive with the proved lookup, made anew unless it is given."""
    folder = os.environ.get("IISPH_ARCHIVE_DIR")
    if folder is None:
        if not shutil.which("rt"):
            raise unittest.SkipTest(NO_ARCHIVE)
        crate = ROOT / "crates/iisph_c_board"
        made = subprocess.run(["rt", "lib"], cwd=crate, capture_output=True, text=True)
        if made.returncode:
            raise AssertionError("`rt lib` makes no archive in crates/iisph_c_board; mend what it tells\n"
                                 + made.stdout + made.stderr)
        folder = crate / "out"
    return pathlib.Path(folder).resolve() / "libiisph_c_board.a"


@unittest.skipUnless(shutil.which("gcc"), NO_COMPILERS)
class Archive(InAFolder):
    @classmethod
    def setUpClass(cls):
        cls.archive = archive()

    def ran(self, source):
        """Status and output of bindings/c/board.c with a C file of the board."""
        program = self.folder / "board"
        self.done("gcc", "-std=c99", "-flto", *WARNED, "-I", ROOT / "include", "-I", FILES,
                  ROOT / "bindings/c/board.c", source, self.archive, "-o", program)
        ran = subprocess.run([program], capture_output=True, text=True)
        return ran.returncode, ran.stdout + ran.stderr

    def test_no_difference(self):
        self.assertEqual(self.ran(FILES / "iisph_board.c"),
                         (0, "no difference: 1025 entries, 4294967296 values of q\n"))

    def test_differences(self):
        text, source = (FILES / "iisph_board.c").read_text(), self.folder / "wrong.c"
        for old, new, said in (
                (" 54, ", " 55, ", "q 1045504: the board's table gives 55, the archive 54"),
                ("    0,\n", "    1,\n", "q 1048576: the board's table gives 1, the archive 0"),
                ("+ UINT32_C(1023)", "", "q 1: the board's lookup gives 1073741819, the archive 1073741818"),
                ("UINT32_C(1048576)) return 0", "UINT32_C(1048576)) return q == UINT32_C(16777216)",
                 "q 16777216: the board's lookup gives 1, the archive 0")):
            self.assertEqual(text.count(old), 1, old)
            source.write_text(text.replace(old, new))
            self.assertEqual(self.ran(source), (1, said + "\n"))


if __name__ == "__main__":
    unittest.main()
