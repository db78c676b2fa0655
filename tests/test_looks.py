"""The check of a contact list reads a contact by `look` alone, the function that counts: the files of
crates/scene_check/src show it."""
import pathlib
import re
import unittest

SOURCES = pathlib.Path(__file__).resolve().parent.parent / "crates/scene_check/src"


def source(name):
    """The code of a module: no comments, no contracts."""
    text = re.sub(r"//.*", "", (SOURCES / name).read_text(encoding="utf-8"))
    clause = r"^ +(?:requires|ensures)\b.*?\}$(?=\n *(?:\{|requires|ensures))"
    return re.sub(clause, "", text, flags=re.M | re.S)


def imported(name):
    return re.findall(r"^use (.*);", source(name), re.M)


def reads(name):
    """Where a module takes bytes of a scene: what it imports to read with, and slices that it indexes."""
    functions = [path for path in imported(name) if path.startswith("scene_format::read")]
    return functions + re.findall(r"\bs\[[^]]*\]|\bs\.get\b", source(name))


class OneReader(unittest.TestCase):
    def test_the_list_imports_look_and_nothing_else_to_read_with(self):
        self.assertEqual(reads("contact_list.rt"), [])
        self.assertIn("crate::look::look", imported("contact_list.rt"))
        self.assertEqual(source("contact_list.rt").count("look("), 1)

    def test_look_reads_one_contact(self):
        self.assertEqual(reads("look.rt"), ["scene_format::read::contact_name"])
        self.assertEqual(source("look.rt").count("contact_name("), 1)
        self.assertEqual(re.findall(r"\bfn (\w+)", source("look.rt")), ["look"])

    def test_no_other_module_reads_a_name(self):
        readers = [path.name for path in sorted(SOURCES.glob("*.rt")) if "contact_name" in source(path.name)]
        self.assertEqual(readers, ["look.rt"])


if __name__ == "__main__":
    unittest.main()
