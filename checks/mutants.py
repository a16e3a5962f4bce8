"""Small changes to the header and to the Python module, each of which a test has to reject.

Each change is made in a copy of the header and of the module, with the installed library, and the named test is run
there. Without a change the test must pass, so that it fails for the change.
"""
import os
import shutil
import sys

from lib.base import PROGRAM, ROOT, environment, execute, read, rows, write
from lib.clib import LibraryCase

HEADER, BINDING, MODULE = "include/tfmset.h", *(f"bindings/python/tfmset/{name}.py" for name in ("_binding", "__init__"))
FIELDS = "library_fields.Fields."
MUTANTS = (
    (HEADER, "int32_t width, height, depth, italic;", "int32_t height, width, depth, italic;", FIELDS + "test_fields"),
    (HEADER, "    int32_t kern;", "    uint32_t kern;", FIELDS + "test_fields"),
    (HEADER, "#define TFMSET_DEFAULT_LIMIT 1048576u", "#define TFMSET_DEFAULT_LIMIT 1048575u", FIELDS + "test_constants"),
    (HEADER, "#define TFMSET_MOST_STEPS 16777216u", "#define TFMSET_MOST_STEPS 16777215u", FIELDS + "test_constants"),
    (HEADER, "#define TFMSET_SPACE 2u", "#define TFMSET_SPACE 4u", FIELDS + "test_attributes"),
    (HEADER, "TFMSET_LAYOUT(tfmset_about, 48, left_boundary, 40);", "TFMSET_LAYOUT(tfmset_about, 48, parameters, 0);",
     "library.Linking.test_header_of_another_layout_000"),
    (BINDING, '("height", _i32), ("depth", _i32)', '("depth", _i32), ("height", _i32)', FIELDS + "test_fields"),
    (MODULE, "bool(pair.keep_left), bool(pair.keep_right)", "bool(pair.keep_right), bool(pair.keep_left)",
     FIELDS + "test_attributes"),
    (MODULE, "    def metrics(self, code: int) -> Optional[Metrics]:", "    def metrics(self, code: int) -> Metrics:",
     FIELDS + "test_annotations"),
    (MODULE, "if not 0 <= index < count:", "if not index < count:", "library_lines.Module.test_exceptions"),
    (MODULE, "item + counts.items))\n", "counts.items))\n", "library_lines.Records.test_blocks"),
    (MODULE, "map(_reason, range(5))", "map(_reason, (0, 2, 1, 3, 4))", "library_lines.Module.test_sizes_texts_and_indices"))


class Mutants(LibraryCase):
    """Changes to the header and to the module"""

    def run_tests(self, names, file="", old="", new=""):
        """The exit status and the last line of tests that are run in a copy, in which one text is replaced."""
        top, prefix = self.other_room(), self.other_room()
        for name in set(os.listdir(ROOT)) - {"checks", "include", "bindings", ".git"}:
            os.symlink(os.path.join(ROOT, name), os.path.join(top, name))
        for name in ("checks", "include", "bindings"):
            shutil.copytree(os.path.join(ROOT, name), os.path.join(top, name))
        if file:
            self.assertEqual(1, read(file).count(old), f"{file} has this text once: {old}")
            write(os.path.join(top, file), read(file).replace(old, new))
        os.symlink(self.lib, prefix + "/lib")
        shutil.copytree(top + "/include", prefix + "/include")
        variables = {"CHECKS_PROGRAM": PROGRAM, "CHECKS_LIBRARY": prefix, "CHECKS_SHARED": self.other_room()}
        status, _, err = execute(sys.executable, "-m", "unittest", *names, cwd=top + "/checks", env=environment(**variables))
        return status, err.strip().splitlines()[-1]

    def test_without_a_change(self):
        """The tests pass."""
        self.need("cc", "c++")
        self.same("result", (0, "OK"), self.run_tests(sorted({test for *_, test in MUTANTS})))

    @rows((f"{file}: {new.strip()}", file, old, new, test) for file, old, new, test in MUTANTS)
    def test_change(self, file, old, new, test):
        """The test fails."""
        self.same(test, 1, self.run_tests([test], file, old, new)[0])
