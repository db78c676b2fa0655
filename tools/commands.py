"""What the tools of this folder share: messages, and how a command's words are taken and carried
out."""
import os
import re
import sys


class Wrong(Exception):
    """Its argument is a message that says what to do."""


class Misused(Exception):
    """The same, of a command's words."""


def counted(n, word): return "%d %s%s" % (n, word, "" if n == 1 else "s")


def either(words):
    *others, last = words
    return ", ".join(others) + " or " * bool(others) + last


def taken(tool, commands, arguments):
    """A known command's words and options, if they are as many and those that it takes. A negative
    number is a word, so that a command can tell what it takes in its place."""
    command, rest, words, options = arguments[0], iter(arguments[1:]), [], {}
    usage, counts, known = commands[command]
    takes = "; this is what it takes: %s %s" % (tool, usage)
    for word in rest:
        if not re.match("-[^0-9.]", word):
            words.append(word)
        elif word not in known or word in options:
            raise Misused("`%s` %s %s" % (command, "has no option" if word not in known else "takes only one", word)
                          + takes)
        else:
            options[word] = next(rest, None) if known[word] else True
            if options[word] is None:
                raise Misused("%s stands without its value" % word + takes)
    if len(words) not in counts:
        raise Misused("`%s` got %s" % (command, counted(len(words), "argument")) + takes)
    return words, options


def read(name):
    """A file's bytes; - is standard input."""
    if name == "-":
        return sys.stdin.buffer.read()
    with open(name, "rb") as file:
        return file.read()


def carried_out(tool, head, commands, run, arguments):
    """The status of a tool that is called so. `run` takes a command, its words and its options, and
    gives notes and the status; `head` says how the tool is used."""
    if "--help" in arguments or "-h" in arguments:
        print(head, end="")
        return 0
    if not arguments or arguments[0] not in commands:
        wrong = "there is no command " + arguments[0] if arguments else "give a command"
        print("%s: %s; here is how to use it\n\n" % (tool, wrong) + head, file=sys.stderr)
        return 2
    try:
        notes, status = run(arguments[0], *taken(tool, commands, arguments))
        print("".join(note + "\n" for note in notes), end="", file=sys.stderr)
        return status
    except (Wrong, Misused) as e:
        print("%s: %s" % (tool, e), file=sys.stderr)
        return 1 if isinstance(e, Wrong) else 2
    except BrokenPipeError:
        os.dup2(os.open(os.devnull, os.O_WRONLY), 1)
        return 0
    except OSError as e:
        print("%s: %s: %s; check the file's name and whether you may use it"
              % (tool, e.filename or "output", e.strerror), file=sys.stderr)
        return 2
