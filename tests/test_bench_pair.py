"""checks/bench_pair.py on stand-ins for benchmarks, which print the rows that they are given."""
import contextlib
import io
import pathlib
import sys
import tempfile
import unittest
from unittest import mock

ROOT = pathlib.Path(__file__).resolve().parent.parent
sys.path[:0] = [str(ROOT / "tools"), str(ROOT / "checks")]
import bench_pair   # noqa: E402

HEAD = "particles contacts iterations    step ms    lent ms    rust ms  step/rust  lent/rust  ns/contact"
OLD = ["1 2 0 8.0 - 2.0 4.0 - -\n64 9 2 0.5 - 1.0 0.5 - 3",
       "1 2 0 6.0 - 1.0 6.0 - -\n64 9 2 0.6 - 1.0 0.6 - 3",
       "1 2 0 9.0 - 1.8 5.0 - -\n64 9 2 0.7 - 1.0 0.7 - 3"]
NEW = ["1 2 0 3.0 1.0 2.0 1.5 0.5 -\n64 9 2 0.4 0.3 1.0 0.4 0.3 3"] * 3


class Pair(unittest.TestCase):
    def setUp(self):
        folder = tempfile.TemporaryDirectory()
        self.addCleanup(folder.cleanup)
        self.folder = pathlib.Path(folder.name)

    def program(self, name, rounds, ending=""):
        """Its first run prints the first of the rounds; it writes down how it was called."""
        for k, rows in enumerate(rounds):
            (self.folder / ("%s.%d" % (name, k))).write_text("%s\n%s\n" % (HEAD, rows))
        path = self.folder / name
        path.write_text('#!/bin/sh\nn=$(grep -c %s "%s/calls")\ncat "$0.$n"\necho %s $* >> "%s/calls"\n%s\n'
                        % (name, self.folder, name, self.folder, ending))
        path.chmod(0o755)
        (self.folder / "calls").touch()
        return str(path)

    def called(self, *arguments):
        out, err = io.StringIO(), io.StringIO()
        with contextlib.redirect_stdout(out), contextlib.redirect_stderr(err), \
                mock.patch.object(sys, "argv", ["bench_pair.py", *arguments]), \
                mock.patch("os.sched_setaffinity") as pinned:
            status = bench_pair.main()
        self.assertEqual(len(pinned.call_args.args[1]), 1)
        return status, [line.split() for line in out.getvalue().splitlines()[1:]], err.getvalue()

    def test_flat(self):
        self.called(self.program("old", OLD), self.program("new", NEW), "1", "--flat")
        self.assertEqual((self.folder / "calls").read_text(), "old 15 all flat\nnew 15 all flat\n")

    def test_best_middle_and_quotients(self):
        old, new = self.program("old", OLD), self.program("new", NEW)
        status, rows, err = self.called(old, new, "3", "--repeats", "7", "--sizes", "1,64")
        self.assertEqual((status, err), (0, ""))
        self.assertEqual((self.folder / "calls").read_text(), "old 7 1,64\nnew 7 1,64\n" * 3)
        self.assertEqual(rows, [
            ["1", "0", "step", "6.000", "5.000", "1.500", "1.500", "0.500", "2.000"],
            ["1", "0", "lent", "6.000", "5.000", "0.500", "0.500", "0.167", "2.000"],
            ["64", "2", "step", "0.500", "0.600", "0.400", "0.400", "0.800", "1.000"],
            ["64", "2", "lent", "0.500", "0.600", "0.300", "0.300", "0.600", "1.000"]])

    def test_lent_is_held_against_lent(self):
        new = self.program("new", NEW * 2)
        self.assertEqual({tuple(row[-2:]) for row in self.called(new, new, "3")[1]}, {("1.000", "1.000")})

    def test_programs_that_say_nothing_useful(self):
        good = self.program("good", NEW)
        for name, rounds, ending, piece in (
                ("none", [""], "", "none has no rows, status 0"),
                ("failed", NEW, "echo why >&2; exit 1", "failed has no rows, status 1: why"),
                ("odd", ["1 2 0 x - 2.0 - - -"], "", "odd has no rows"),
                ("other", ["9 2 0 1.0 - 2.0 0.5 - -"], "", "OLD has no row of 1 particles")):
            status, _, err = self.called(self.program(name, rounds, ending), good, "1")
            self.assertEqual((status, piece in err), (2, True), err)
        self.assertEqual(self.called(str(self.folder / "missing"), good)[0], 2)

    def test_the_rows_are_those_of_the_benchmark(self):
        self.assertIn('"%s"' % HEAD, (ROOT / "oracle/src/bin/bench/main.rs").read_text())


if __name__ == "__main__":
    unittest.main()
