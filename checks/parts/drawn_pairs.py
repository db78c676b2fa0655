"""What rule_pairs.py and flat_twins.py have in common: options, a subject that is asked for the
texts of drawn scenes, and how they end."""
import argparse
import sys

from compare import command_of, whole
from made_scenes import CLASSES, LARGE
from parts.sides import Failed, texts_of
from parts.step_rules import FLAT, SOLID
from reference import Stop, answering


class Different(Exception):
    """Two texts differ that may not. Its arguments are a scene and the texts."""


def parsed(usage, axes):
    """The options; --axes is one of them if `axes`."""
    parser = argparse.ArgumentParser(usage=usage)
    parser.add_argument("--scenes", type=whole, default=2000)
    parser.add_argument("--seed", type=whole, default=1)
    if axes:
        parser.add_argument("--axes", type=int, choices=[FLAT, SOLID], default=SOLID)
    parser.add_argument("--only", choices=[*CLASSES, *LARGE])
    parser.add_argument("--subject")
    parser.add_argument("--bytes", type=whole, default=300000)
    return parser.parse_args()


def asked(options):
    """What gives the texts of a list of scenes: the subject, or the reference."""
    if options.subject is not None:
        command = command_of(options.subject)
        return lambda scenes: texts_of(command, scenes)
    lines = answering(any_length=options.only in LARGE)
    return lambda scenes: list(map(lines, scenes))


def run(usage, axes, counted, table, different):
    """Prints the table of what is counted; `different` is said where two texts differ. Gives the
    status."""
    options = parsed(usage, axes)
    try:
        print("\n".join(table(counted(options, asked(options)))))
        return 0
    except Different as e:
        print("%s: %s\n%s%s" % (different, e.args[0].hex(), *e.args[1:]))
        return 1
    except (Stop, Failed, ValueError) as e:      # ValueError: a command with an open quote
        print(e, file=sys.stderr)
    except OSError as e:
        print("%s: %s" % (e.filename or "output", e.strerror), file=sys.stderr)
    return 2
