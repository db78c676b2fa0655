"""checks/bench_turns.py on stand-ins for archives, whose step answers with one number."""
import pathlib
import subprocess
import sys
import tempfile
import unittest

ROOT = pathlib.Path(__file__).resolve().parent.parent
TURNS = ROOT / "checks" / "bench_turns.py"

# ANSWER is what a step writes, ENDING what it returns; an index of 3 numbers is asked for.
ARCHIVE = """#include <stddef.h>
#include <stdint.h>
uint64_t iisph_needed(const uint8_t *s, size_t n, uint64_t *c, size_t m) { c[0] = c[1] = 1; return 0; }
uint64_t iisph_step(const uint8_t *s, size_t n, double *a, size_t al, double *w, size_t wl, double *x, size_t xl,
                    uint64_t *c, size_t cl) { a[0] = ANSWER; return ENDING; }
uint64_t iisph_step_lent(const uint8_t *s, size_t n, double *a, size_t al, double *w, size_t wl, uint64_t *i, size_t il,
                         double *x, size_t xl, uint64_t *c, size_t cl) {
    if (il < 3) { c[0] = 3; return 98; }
    i[2] = 7; a[0] = ANSWER; return ENDING; }
"""


class Turns(unittest.TestCase):
    def setUp(self):
        folder = tempfile.TemporaryDirectory()
        self.addCleanup(folder.cleanup)
        self.folder = pathlib.Path(folder.name)
        (self.folder / "archive.c").write_text(ARCHIVE)
        (self.folder / "scene").write_bytes(bytes(50_000))

    def archive(self, name, answer=1, ending=1):
        made, object_ = self.folder / name, self.folder / "archive.o"
        subprocess.run(["cc", "-fPIC", "-DANSWER=%s" % answer, "-DENDING=%s" % ending, "-c",
                        str(self.folder / "archive.c"), "-o", str(object_)], check=True)
        subprocess.run(["ar", "rcs", str(made), str(object_)], check=True)
        return str(made)

    def called(self, *archives, scene="scene"):
        done = subprocess.run([sys.executable, "-B", str(TURNS), *archives, "--rounds", "2", "--scenes",
                               str(self.folder / scene)], capture_output=True, text=True, check=False)
        return done.returncode, done.stdout.splitlines(), done.stderr

    def test_a_line_for_each_way_with_a_ratio_for_each_other_archive(self):
        status, lines, _ = self.called(self.archive("a.a"), self.archive("b.a"), self.archive("c.a"))
        self.assertEqual((status, [line.split()[:2] for line in lines]), (0, [["scene", "step"], ["scene", "lent"]]))
        self.assertEqual([len(line.split()) for line in lines], [5, 5])

    def test_other_answers_are_told(self):
        status, lines, told = self.called(self.archive("a.a"), self.archive("b.a", answer=2))
        self.assertEqual((status, lines), (2, []))
        self.assertIn("the answers differ", told)

    def test_a_refused_scene_is_told(self):
        status, _, told = self.called(self.archive("a.a"), self.archive("b.a", ending=109))
        self.assertEqual(status, 2)
        self.assertIn("an archive refuses it", told)

    def test_a_missing_scene_is_told(self):
        status, _, told = self.called(self.archive("a.a"), scene="none")
        self.assertEqual(status, 2)
        self.assertIn("can't be read", told)


if __name__ == "__main__":
    unittest.main()
