"""include/iisph.h declares the functions of the crates of the C interface, each list as a pointer and a length, and the
Rust binding declares them alike; both give the versions and the rules the same numbers."""
import pathlib
import re
import unittest

ROOT = pathlib.Path(__file__).resolve().parent.parent
HEADER = (ROOT / "include/iisph.h").read_text()
CRATES = "iisph_c", "iisph_c_lists", "iisph_c_board"
IN_C = {"&[u8]": ["const uint8_t *", "size_t "], "&mut [f64]": ["double *", "size_t "],
        "&mut [u64]": ["uint64_t *", "size_t "], "&mut [usize]": ["uint64_t *", "size_t "],
        "f64": ["double "], "u32": ["uint32_t "], "u64": ["uint64_t "], "usize": ["size_t "]}
RUST_IN_C = {"*const u8": "const uint8_t *", "*mut f64": "double *", "*mut u64": "uint64_t *", "usize": "size_t ",
             "f64": "double ", "u32": "uint32_t ", "u64": "uint64_t "}


def typed(parameters):
    """The types of parameters as Rattle and Rust write them."""
    return [p.split(":")[1].strip() for p in parameters.split(",") if p.strip()]


def exported():
    """Name, and types in C of the result and the parameters, of each exported function."""
    source = "".join((ROOT / "crates" / crate / "src/lib.rt").read_text() for crate in CRATES)
    for name, parameters, result in re.findall(r'extern "C" fn (\w+)\((.*?)\) -> (\w+)', source, re.S):
        yield name, IN_C[result] + [c for t in typed(parameters) for c in IN_C[t]]


def declared():
    code = re.sub(r"/\*.*?\*/", "", HEADER, flags=re.S)
    for result, name, parameters in re.findall(r"^(\w+ )(iisph_\w+)\((.*?)\);", code, re.S | re.M):
        yield name, [result] + [re.sub(r"\w+$", "", " ".join(p.split())) for p in parameters.split(",")]


def bound():
    source = (ROOT / "bindings/rust/src/c.rs").read_text()
    for name, parameters, result in re.findall(r"pub fn (\w+)\((.*?)\) -> (\w+);", source, re.S):
        yield name, [RUST_IN_C[t] for t in [result] + typed(parameters)]


class Header(unittest.TestCase):
    def test_declares_what_is_exported(self):
        self.assertEqual(len(dict(exported())), 11)
        self.assertEqual(dict(declared()), dict(exported()))

    def test_is_what_rust_declares(self):
        self.assertEqual(dict(bound()), dict(declared()))

    def test_numbers_the_versions_as_rust_does(self):
        in_c = re.findall(r"IISPH_VERSION_(\w+) = (\d+)", HEADER)
        source = (ROOT / "bindings/rust/src/stopping.rs").read_text().split("fn numbers")[1]
        in_rust = re.findall(r"^ +Version::(\w+).* => (\d),$", source, re.M)
        self.assertEqual(in_c, [("1", "1"), ("2", "2"), ("FLAT", "4")])
        self.assertEqual(in_rust, [("One", "1"), ("Two", "2"), ("Four", "4")])

    def test_names_the_rules_as_rust_does(self):
        in_c = re.findall(r"IISPH_RULE_(\w+) = (\d+)", HEADER)
        source = (ROOT / "bindings/rust/src/stopping.rs").read_text()
        in_rust = dict(re.findall(r"^    (\w+) = (\d+),$", source, re.M))
        self.assertEqual(in_c, [("SALVA", "0"), ("IHMSEN2014", "1"), ("SALVA_BY_HALVES", "2"),
                                ("IHMSEN2014_BY_HALVES", "3")])
        self.assertEqual(list(in_rust), ["Salva", "Ihmsen2014", "InOrder", "ByHalves"])
        self.assertEqual([str(int(in_rust[stopping]) + int(in_rust[summation]))
                          for summation in ("InOrder", "ByHalves") for stopping in ("Salva", "Ihmsen2014")],
                         [number for _, number in in_c])

    def test_fits_in_100_columns(self):
        self.assertEqual([line for line in HEADER.splitlines() if len(line) > 100], [])


if __name__ == "__main__":
    unittest.main()
