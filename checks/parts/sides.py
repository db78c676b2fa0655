"""The two sides that compare.py holds against each other: what is expected, from the oracle and the
reference, and the subject, each asked for the texts of some scenes. The oracle steps solid scenes
and flat ones."""
import pathlib
import subprocess
import tempfile

from made_scenes import LARGE
from parts.packing import axes_of
from parts.step_scenes import FORM_NAME, FORMS, changed, under
from reference import Stop, answering, batch, texts

SKIPPED = "skipped\n"
RUSTS_RULE = 0


class Failed(Exception):
    """A command ended badly. Its argument is a message."""


def ran(command, folder, given=None):
    """What a command prints, which must end well."""
    try:
        done = subprocess.run(command, cwd=folder, input=given, capture_output=True)
    except OSError as e:
        raise Stop("%s can't be run: %s" % (command[0], e.strerror))
    if done.returncode != 0:
        raise Failed("%s ended with status %d\n%s"
                     % (" ".join(command), done.returncode, done.stderr.decode(errors="replace")[-2000:]))
    return done.stdout.decode("ascii", errors="replace")


def files_full(scenes, most):
    """The scenes in lists of at most so many bytes."""
    full, size = [], 0
    for scene in scenes:
        if full and size + len(scene[1]) + 4 > most:
            yield full
            full, size = [], 0
        full.append(scene)
        size += len(scene[1]) + 4
    if full:
        yield full


def texts_of(command, scenes):
    """What a command that reads the file `scenes` prints of each."""
    with tempfile.TemporaryDirectory() as folder:
        (pathlib.Path(folder) / "scenes").write_bytes(batch(scenes))
        return texts(ran(command, folder))


class Expected:
    """The texts that scenes must have, by the oracle, and by the reference where a rule is none of
    the Rust's."""

    def __init__(self, oracle, any_length=False):
        self.oracle = [str(oracle), "scenes", "scenes"] + ["--any-length"] * any_length
        self.lines = answering(any_length)

    def rusts(self, scenes):
        """The oracle's answers."""
        try:
            found = texts_of(self.oracle, scenes)
        except Failed as e:
            raise Stop(str(e))
        if len(found) != len(scenes):
            raise Stop("the oracle gave %d answers to %d scenes" % (len(found), len(scenes)))
        return found

    def of(self, scenes):
        """Under another rule than the Rust's the first line is the reference's. The others do not hang
        on the rule but on the number of iterations: they are the Rust's after as many, where it
        leaves no sign open."""
        found = self.rusts(scenes)
        at = [k for k, data in enumerate(scenes) if found[k] == SKIPPED and form(data)[1] != RUSTS_RULE]
        lines = [self.lines(scenes[k]) for k in at]
        for k, line, rust in zip(at, lines, self.rusts([without_end(scenes[k], line) for k, line in zip(at, lines)])):
            found[k] = line if rust == SKIPPED else line.split("\n", 1)[0] + "\n" + rust.split("\n", 1)[1]
        return found


def form(data): return (data[0] >> 4, data[1] & 15) if len(data) > 1 else None


def form_name(data):
    """The name of a scene's version and rule."""
    return FORM_NAME % form(data) if form(data) in sum(FORMS.values(), []) else "without a form"


def without_end(data, text):
    """The scene under the Rust's rule, with the iterations of this text and no end before."""
    iterations = int(text.split(maxsplit=3)[2])
    first_form = FORMS[axes_of(data)][0]      # the Rust's rule
    return changed(under(data, *first_form), 2, bytes([iterations, iterations]))


class Sides:
    """What is expected and what the subject answers."""

    def __init__(self, options):
        self.expected = Expected(options.oracle, options.only in LARGE)
        self.subject, self.alone = options.command, options.stdin

    def ask(self, scenes):
        expected = self.expected.of(scenes)
        if self.alone:
            return expected, [ran(self.subject, None, data) for data in scenes]
        return expected, texts_of(self.subject, scenes)

    def first_wrong(self, scenes, most):
        """The first of these scenes on which the answers differ, asking for many at a time."""
        for full in files_full(((None, data) for data in scenes), most):
            some = [data for _, data in full]
            try:
                expected, ours = self.ask(some)
            except Failed:
                ours = None
            if ours is None or len(ours) != len(some):      # one of them has no answer: which?
                if len(some) == 1:
                    return some[0]
                found = self.first_wrong(some, len(some[0]) + 4)
            else:
                found = next((data for data, a, b in zip(some, expected, ours) if a not in (b, SKIPPED)), None)
            if found is not None:
                return found
        return None
