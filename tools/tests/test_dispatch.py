"""Tests of the script ./dispatch, over a tree with a program and a kit that stand in for the built ones."""

import os
import shutil
import stat
import subprocess
import tempfile
import unittest

TOP = os.path.dirname(os.path.dirname(os.path.dirname(os.path.abspath(__file__))))

# Answers its words and ends with the status that the first word asks for.
PROGRAM = '#!/bin/sh\necho "answer: $*"\ncase $1 in [0-9]*) exit "$1" ;; esac\n'

# Stands in for `rt`: `run` builds the program, `try` runs it on the words behind `--` in the folder where it is called.
KIT = """#!/bin/sh
case $1 in
run)
    echo "crate d_low: modules loaded=1"
    echo "crate d_high: modules loaded=1"
    mkdir -p out
    printf '#!/bin/sh\\necho built\\n' >out/dispatch
    chmod +x out/dispatch
    ;;
try)
    shift 2
    for word; do [ -f "$word" ] && cat "$word"; done
    echo "tried: $1"
    exit 5
    ;;
esac
"""


def write(path, text, runs=True):
    """Writes a file, which runs where asked for."""
    os.makedirs(os.path.dirname(path), exist_ok=True)
    with open(path, "w") as file:
        file.write(text)
    if runs:
        os.chmod(path, os.stat(path).st_mode | stat.S_IXUSR)


class Dispatch(unittest.TestCase):
    """Each test has a tree of its own, with the real script and the real usage."""

    def setUp(self):
        self.tree = tempfile.mkdtemp()
        self.addCleanup(shutil.rmtree, self.tree)
        self.script = os.path.join(self.tree, "dispatch")
        shutil.copy(os.path.join(TOP, "dispatch"), self.script)
        os.makedirs(os.path.join(self.tree, "docs"))
        shutil.copy(os.path.join(TOP, "docs", "usage.txt"), os.path.join(self.tree, "docs"))
        write(os.path.join(self.tree, "crates.txt"), "d_low:\nd_high: d_low\ndispatch: d_high\nlow_tests: d_low\n", runs=False)
        self.program = os.path.join(self.tree, "crates", "dispatch", "out", "dispatch")
        self.kit = os.path.join(self.tree, "kit")

    def run_script(self, *words, script=None, kit=False):
        """What the script answers to these words: its status, standard output and standard error."""
        path = "/usr/bin:/bin" + (":" + self.kit if kit else "")
        done = subprocess.run([script or self.script, *words], capture_output=True, text=True, check=False,
                              cwd=self.tree, env={"PATH": path})
        return done.returncode, done.stdout, done.stderr

    def test_output_and_status_are_the_programs(self):
        write(self.program, PROGRAM)
        for status in (0, 2, 3, 4, 5, 6, 7):
            self.assertEqual(self.run_script(str(status), "word"), (status, "answer: %d word\n" % status, ""))

    def test_help_is_the_usage(self):
        for word in ("-h", "--help"):
            status, said, noted = self.run_script(word)
            self.assertEqual((status, noted), (0, ""))
            self.assertIn("./dispatch plan --records FILE", said)

    def test_no_words_show_the_usage_beside_the_answer(self):
        write(self.program, PROGRAM)
        status, said, noted = self.run_script()
        self.assertEqual((status, said), (0, "answer: \n"))
        self.assertIn("./dispatch plan --records FILE", noted)

    def test_no_words_build_nothing(self):
        status, said, noted = self.run_script(kit=True)
        self.assertEqual((status, said), (1, ""))
        self.assertIn("./dispatch plan --records FILE", noted)

    def test_refused_words_point_to_the_help(self):
        write(self.program, PROGRAM)
        self.assertIn("--help", self.run_script("1")[2])
        self.assertIn("UTF-8", self.run_script("10")[2])

    def test_want_of_memory_is_said(self):
        write(self.program, PROGRAM)
        self.assertEqual(self.run_script("9")[2], "dispatch: there wasn't enough memory\n")

    def test_a_file_that_is_not_there_is_named(self):
        write(self.program, PROGRAM)
        write(os.path.join(self.tree, "there.csv"), "", runs=False)
        noted = self.run_script("8", "--records", "there.csv", "--readings", "gone.csv")[2]
        self.assertEqual(noted, "dispatch: --readings: there is no file gone.csv\n")

    def test_a_folder_is_named(self):
        write(self.program, PROGRAM)
        os.mkdir(os.path.join(self.tree, "folder"))
        self.assertEqual(self.run_script("8", "--battery", "folder")[2], "dispatch: --battery: folder is a folder\n")

    def test_other_failures_of_files_are_said(self):
        write(self.program, PROGRAM)
        self.assertIn("couldn't be read", self.run_script("8")[2])

    def test_a_symbolic_link_runs_the_same_program(self):
        write(self.program, PROGRAM)
        folder = tempfile.mkdtemp()
        self.addCleanup(shutil.rmtree, folder)
        near, far = os.path.join(self.tree, "near"), os.path.join(folder, "far")
        os.symlink("dispatch", near)
        os.symlink(near, far)
        self.assertEqual(self.run_script("2", script=far), (2, "answer: 2\n", ""))

    def test_without_the_kit_it_says_where_that_comes_from(self):
        for words in (("plan",), ("--try", "plan")):
            status, said, noted = self.run_script(*words)
            self.assertEqual((status, said), (8, ""))
            self.assertIn("README.md says where", noted)

    def test_it_tells_each_crate_while_it_builds(self):
        write(os.path.join(self.kit, "rt"), KIT)
        status, said, noted = self.run_script("plan", kit=True)
        self.assertEqual((status, said), (0, "built\n"))
        self.assertIn("dispatch: d_low is proved, 2 left\ndispatch: d_high is proved, 1 left\n", noted)

    def test_a_try_runs_unproved_on_copies_of_the_files(self):
        write(os.path.join(self.kit, "rt"), KIT)
        write(os.path.join(self.tree, "my record.csv"), "label\n", runs=False)
        os.makedirs(os.path.join(self.tree, "crates", "dispatch"))
        status, said, noted = self.run_script("--try", "plan", "--records", "my record.csv", kit=True)
        self.assertEqual((status, said), (5, "label\ntried: plan\n"))
        self.assertEqual(noted, "dispatch: this build isn't proved: it shows what the program does, and doesn't vouch for it\n")
        self.assertEqual(os.listdir(os.path.join(self.tree, "crates", "dispatch", "out")), [])
        self.assertFalse(os.path.exists(self.program))


if __name__ == "__main__":
    unittest.main()
