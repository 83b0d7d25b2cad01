#!/usr/bin/env python3
"""Tests of `manifest.py`: what a compilation database says, and the manifest that stands for it."""

import contextlib
import io
import json
import os
import sys
import tempfile
import unittest

sys.path.insert(0, os.path.dirname(os.path.abspath(__file__)))
import manifest  # noqa: E402


def made(root, *entries):
    """The units and the notes for some compilations of a project in a folder."""
    notes = manifest.Notes()
    units = manifest.manifest_of(root, list(entries), notes)["units"]
    return units, list(notes.lines)


def compiled(command, file="a.c", directory="/p"):
    return {"directory": directory, "file": file, "command": command}


class Units(unittest.TestCase):
    def test_folders_and_defines(self):
        units, notes = made("/p", compiled("cc -Iinc -I /p/lib/inc -DN=3 -D D -O2 -o a.o -c a.c"))
        self.assertEqual(units, [{"file": "a.c", "include": ["inc", "lib/inc"], "define": ["N=3", "D"]}])
        self.assertEqual(notes, [])

    def test_words_given_one_by_one(self):
        entry = {"directory": "/p", "file": "a.c", "arguments": ["cc", "-DTEXT=\"a b\"", "-c", "a.c"]}
        self.assertEqual(made("/p", entry), ([{"file": "a.c", "define": ["TEXT=\"a b\""]}], []))

    def test_quoted_words_of_a_command(self):
        units, _ = made("/p", compiled("cc '-DTEXT=\"a b\"' -c a.c"))
        self.assertEqual(units[0]["define"], ["TEXT=\"a b\""])

    def test_a_folder_of_the_build(self):
        units, notes = made("/p", compiled("cc -I. -I../inc -c ../src/a.c", file="../src/a.c", directory="/p/build"))
        self.assertEqual(units, [{"file": "src/a.c", "include": ["build", "inc"]}])
        self.assertEqual(notes, [])

    def test_the_root_is_an_include_folder(self):
        self.assertEqual(made("/p", compiled("cc -I. -c a.c"))[0][0]["include"], ["."])

    def test_the_order_of_search(self):
        units, _ = made("/p", compiled("cc -isystem s -I i -idirafter z -iquote q -c a.c"))
        self.assertEqual(units[0]["include"], ["q", "i", "s", "z"])

    def test_the_last_define_counts(self):
        units, _ = made("/p", compiled("cc -DA=1 -DA=2 -DB -UB -c a.c"))
        self.assertEqual(units[0]["define"], ["A=2"])

    def test_equal_units_stand_once(self):
        units, _ = made("/p", compiled("cc -c a.c"), compiled("cc -g -c a.c"), compiled("cc -DX -c a.c"))
        self.assertEqual(units, [{"file": "a.c"}, {"file": "a.c", "define": ["X"]}])


class Notes(unittest.TestCase):
    def test_a_file_outside(self):
        units, notes = made("/p", compiled("cc -c ../b.c", file="../b.c"), compiled("cc -c a.c"))
        self.assertEqual(units, [{"file": "a.c"}])
        self.assertEqual(notes, ["../b.c: left out, it has no normal name below the root"])

    def test_a_name_that_is_not_normal(self):
        self.assertEqual(made("/p", compiled("cc -c 'a b.c'", file="a b.c"))[1], ["a b.c: left out, it has no normal name below the root"])

    def test_another_language(self):
        self.assertEqual(made("/p", compiled("c++ -c a.cpp", file="a.cpp"))[1], ["a.cpp: left out, it is no .c file"])

    def test_an_include_folder_outside(self):
        units, notes = made("/p", compiled("cc -I/usr/include/x -Iinc -c a.c"))
        self.assertEqual(units, [{"file": "a.c", "include": ["inc"]}])
        self.assertEqual(notes, ["a.c: the include folder /usr/include/x has no normal name below the root"])

    def test_defines_that_have_not_the_form(self):
        for define in ("F(x)=x", "A=a##b", "A='", "A=/*", "__LINE__=1", "A=b\\", "A=??=", "1A"):
            with self.subTest(define=define):
                entry = {"directory": "/p", "file": "a.c", "arguments": ["cc", "-D" + define, "-c", "a.c"]}
                self.assertEqual(made("/p", entry), ([{"file": "a.c"}], [f"a.c: the define {define} can't be said in a manifest"]))

    def test_closed_quotes_and_comments(self):
        for define in ("A='\\''", "A=\"'\"", "A=/* ' */ 1", "A=1 // '"):
            with self.subTest(define=define):
                self.assertTrue(manifest.is_define(define))

    def test_a_file_that_is_included_by_an_option(self):
        units, notes = made("/p", compiled("cc -include config.h -c a.c"))
        self.assertEqual(units, [{"file": "a.c"}])
        self.assertEqual(notes, ["a.c: `-include config.h` can't be said in a manifest"])


class Program(unittest.TestCase):
    def run_on(self, text):
        """The status, the output and the notes of the program on a database with this text."""
        with tempfile.TemporaryDirectory() as folder:
            path = os.path.join(folder, "compile_commands.json")
            with open(path, "w", encoding="utf-8") as database:
                database.write(text)
            out, notes = io.StringIO(), io.StringIO()
            with contextlib.redirect_stdout(out), contextlib.redirect_stderr(notes):
                status = manifest.main([path, "--root", "/p"])
            return status, out.getvalue(), notes.getvalue()

    def test_a_manifest_is_printed(self):
        status, out, notes = self.run_on(json.dumps([compiled("cc -DN=1 -c a.c")]))
        self.assertEqual((status, json.loads(out), notes), (0, {"units": [{"file": "a.c", "define": ["N=1"]}]}, ""))

    def test_a_unit_is_left_out(self):
        status, out, notes = self.run_on(json.dumps([compiled("cc -c ../b.c", file="../b.c")]))
        self.assertEqual((status, json.loads(out)), (1, {"units": []}))
        self.assertIn("left out", notes)

    def test_no_database(self):
        self.assertEqual(self.run_on("{")[0], 2)

    def test_too_many_units(self):
        status, out, notes = self.run_on(json.dumps([compiled(f"cc -DN={n} -c a.c") for n in range(257)]))
        self.assertEqual((status, len(json.loads(out)["units"])), (1, 256))
        self.assertIn("257 units", notes)


if __name__ == "__main__":
    unittest.main()
