"""What the tests of the tools share: they run a tool or the program as a user does."""

import os
import subprocess
import sys
import tempfile
import unittest

TOP = os.path.dirname(os.path.dirname(os.path.dirname(os.path.abspath(__file__))))
PROGRAM = os.path.abspath(os.environ.get("DISPATCH", os.path.join(TOP, "crates", "dispatch", "out", "dispatch")))
HAS_PROGRAM = os.path.isfile(PROGRAM)


class ToolTest(unittest.TestCase):
    """A test with a folder of its own."""

    def setUp(self):
        folder = tempfile.TemporaryDirectory()
        self.addCleanup(folder.cleanup)
        self.folder = folder.name

    def file(self, name, content):
        """Writes a file into the folder, and tells its path."""
        path = os.path.join(self.folder, name)
        with open(path, "wb") as file:
            file.write(content if isinstance(content, bytes) else content.encode("utf-8"))
        return path

    def run_tool(self, name, *words, given=b""):
        """Runs a tool: its status, output and notes."""
        done = subprocess.run([sys.executable, os.path.join(TOP, "tools", name), *words], input=given, capture_output=True, check=False)
        return done.returncode, done.stdout.decode("utf-8", "replace"), done.stderr.decode("utf-8", "replace")

    def output_of(self, name, *words, given=b""):
        """The output of a tool that ends well."""
        status, output, notes = self.run_tool(name, *words, given=given)
        self.assertEqual(0, status, notes)
        return output

    def error_of(self, name, *words, given=b""):
        """The one line that a tool fails with."""
        status, output, notes = self.run_tool(name, *words, given=given)
        self.assertEqual(1, status, output + notes)
        self.assertEqual(1, notes.count("\n"), notes)
        self.assertTrue(notes.startswith(f"{name}: error: "), notes)
        return notes

    def assert_help(self, name):
        """The help says what the tool is, gives an example and says that it isn't proved."""
        text = " ".join(self.output_of(name, "--help").split())
        self.assertIn(f"example: tools/{name}", text)
        self.assertIn("no part of what is proved", text)
        self.assertEqual(2, self.run_tool(name, "--nonsense")[0])

    def bad_inputs(self):
        """Paths that are no good input of any tool: missing, a folder, empty, bytes, UTF-16, packed."""
        return [
            os.path.join(self.folder, "missing"),
            self.folder,
            self.file("empty", b""),
            self.file("bytes", bytes(range(256)) * 40),
            self.file("utf16", "label,name\nL,N\n".encode("utf-16")),
            self.file("packed", b"\x1f\x8b\x08\x00\x00\x00\x00\x00\x00\x03\xcb\x49\x4c\x4a\xcd\xd1\xc9"),
        ]


def run_program(*words):
    """Runs the program: its status and output."""
    done = subprocess.run([PROGRAM, *words], capture_output=True, check=False)
    return done.returncode, done.stdout.decode("utf-8", "replace")
