"""How each program of tools/ and checks/ takes its arguments, what the two folders may share,
oracle/prepare.py without a Rust text, and tools/run with a stand-in for rt."""
import ast
import contextlib
import importlib
import io
import os
import pathlib
import shutil
import subprocess
import sys
import tempfile
import unittest
from unittest import mock

ROOT = pathlib.Path(__file__).resolve().parent.parent
sys.path[:0] = [str(ROOT / "tools"), str(ROOT / "checks")]
from answer_files import NO_NUMBER, PASSED_OVER    # noqa: E402

FILES = {folder: sorted((ROOT / folder).glob("*.py")) for folder in ("tools", "checks")}
TOOLS = [path.stem for paths in FILES.values() for path in paths if os.access(path, os.X_OK)]


def called(name, *arguments):
    """Status and both outputs of a tool's main; no process may be started."""
    tool, out, err = importlib.import_module(name), io.StringIO(), io.StringIO()
    given, idle = mock.patch.object(sys, "argv", [name, *arguments]), mock.patch("subprocess.run", None)
    with contextlib.redirect_stdout(out), contextlib.redirect_stderr(err), given, idle:
        try:
            status = tool.main(list(arguments)) if tool.main.__code__.co_argcount else tool.main()
        except SystemExit as e:
            status = e.code
    return status, out.getvalue(), err.getvalue()


class Arguments(unittest.TestCase):
    def test_help_is_the_head(self):
        for name in TOOLS:
            status, out, err = called(name, "--help")
            self.assertEqual((status, err), (0, ""), name)
            self.assertIn(importlib.import_module(name).__doc__.strip().splitlines()[0], out)

    def test_an_unknown_argument_starts_nothing(self):
        for name in TOOLS:
            status, out, err = called(name, "--nonsense")
            self.assertEqual((status, out), (2, ""), name)
            self.assertTrue(name in err or importlib.import_module(name).__doc__.strip().splitlines()[0] in err, err)


def imported(path):
    """The modules that a file imports, by their first names."""
    for node in ast.walk(ast.parse(path.read_text())):
        if isinstance(node, (ast.Import, ast.ImportFrom)):
            module = getattr(node, "module", None)      # of `from module import ..`
            for name in [module] if module else [alias.name for alias in node.names]:
                yield name.split(".")[0]


class Folders(unittest.TestCase):
    def test_tools_need_no_checks(self):
        checks = {path.stem for path in FILES["checks"]} | {"parts"}
        self.assertLessEqual({"reference", "parts"}, checks & set(imported(ROOT / "checks/compare.py")))
        for path in FILES["tools"]:
            self.assertEqual(checks & set(imported(path)), set(), path)

    def test_no_name_is_in_both(self):
        names = [path.stem for paths in FILES.values() for path in paths]
        self.assertEqual(sorted(names), sorted(set(names)))

    def test_each_file_is_in_its_readme(self):
        for folder, paths in FILES.items():
            text = (ROOT / folder / "README.md").read_text()
            for path in paths:
                self.assertIn("`%s`" % path.name, text)


class Prepare(unittest.TestCase):
    def test_it_needs_a_folder_with_the_rust_text(self):
        with tempfile.TemporaryDirectory() as folder:
            for arguments, piece in (([], "oracle/prepare.py FOLDER"), (["a", "b"], "oracle/prepare.py FOLDER"),
                                     (["--nonsense"], "oracle/prepare.py FOLDER"),
                                     ([folder], "give the folder with the Rust text")):
                done = subprocess.run([sys.executable, "-B", ROOT / "oracle/prepare.py", *arguments],
                                      capture_output=True, text=True, cwd=folder)
                self.assertEqual((done.returncode, done.stdout, piece in done.stderr), (2, "", True), done.stderr)
            self.assertEqual(os.listdir(folder), [])


class Run(unittest.TestCase):
    """In a folder of its own, with an rt that writes down its arguments and makes a program that
    says `new` or, on request, fails."""

    def setUp(self):
        self.root = pathlib.Path(tempfile.mkdtemp())
        self.addCleanup(shutil.rmtree, self.root)
        for folder in "tools", "kit", "plain", "crates/iisph/out":
            (self.root / folder).mkdir(parents=True)
        shutil.copy(ROOT / "tools/run", self.root / "tools/run")
        # all that it needs before it looks for rt
        (self.root / "plain/dirname").symlink_to(shutil.which("dirname"))
        (self.root / "crates.txt").write_text("")
        (self.root / "scene.bin").write_bytes(b"the scene")
        self.script("kit/rt",
                    "echo rt $*; [ ! -e ../../fails ] || exit 1; printf '#!/bin/sh\\necho new; cat\\n"
                    "' > out/iisph; chmod +x out/iisph")

    def script(self, name, text):
        (self.root / name).write_text("#!/bin/sh\n" + text + "\n")
        (self.root / name).chmod(0o755)

    def ran(self, *arguments, kit=True):
        path = "%s:/usr/bin:/bin" % (self.root / "kit") if kit else str(self.root / "plain")
        done = subprocess.run([self.root / "tools/run", *arguments], capture_output=True, text=True, cwd=self.root,
                              env={"PATH": path})
        return done.returncode, done.stdout, done.stderr

    def test_an_old_program_is_never_run(self):
        self.script("crates/iisph/out/iisph", "echo old")
        self.assertEqual(self.ran("scene.bin"), (0, "new\nthe scene", ""))
        self.assertEqual((self.root / "target/run.log").read_text(), "rt run\n")

    def test_it_warns_of_an_average_that_is_not_a_number(self):
        for first, warning in (("step settled 2 0000000000000000 1", PASSED_OVER),
                               ("step ranout 1 7FF0000000000000 1", PASSED_OVER),
                               ("step ranout 50 7FF8000000000000 0", NO_NUMBER),
                               ("step ranout 1 7FF0000000000000 0", None),
                               ("step settled 2 0000000000000000 0", None), ("step unswept 0", None),
                               ("step settled 2 8000000000000000 0", None),
                               ("refused 7 1", None), ("too long", None)):
            text = first + "\nclock 1\nstep settled 1 0 1\n\n"
            (self.root / "scene.bin").write_text(text)
            self.script("kit/rt", "printf '#!/bin/sh\\ncat; exit 3\\n' > out/iisph; chmod +x out/iisph")
            status, out, err = self.ran("scene.bin")
            said = [line for line in err.splitlines() if "WARNING" in line]
            self.assertEqual((status, out, said), (3, text, ["tools/run: WARNING: " + warning] if warning else []))

    def test_every_message_says_what_to_do(self):
        for arguments, piece in (((), "give one packed scene"), (("a", "b"), "give one packed scene"),
                                 (("none.bin",), "there is no file none.bin; check its name"),
                                 (("crates",), "crates is a folder; give a packed scene")):
            status, out, err = self.ran(*arguments)
            self.assertEqual((status, out, piece in err), (2, "", True), err)
        status, out, err = self.ran("scene.bin", kit=False)
        self.assertEqual((status, out, "put the kit's bin folder on PATH" in err), (2, "", True), err)
        (self.root / "fails").touch()
        status, out, err = self.ran("scene.bin")
        self.assertEqual((status, out, "the whole log is %s" % (self.root / "target/run.log") in err), (1, "", True),
                         err)
        self.assertEqual(self.ran("--help")[::2], (0, ""))


if __name__ == "__main__":
    unittest.main()
