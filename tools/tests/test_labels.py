"""Tests of tools/labels."""

import os
import sys
import unittest

sys.path.insert(0, os.path.dirname(os.path.abspath(__file__)))
from tool_runner import TOP, ToolTest

HEADER = "label\tutility\tname\tsector\tstartdate\n"


class Labels(ToolTest):
    def test_all_records_are_listed_without_a_word(self):
        path = self.file("a.csv", "label,name,utility,sector,startdate\nA,n,u,s,2025-01-01\nB,m,v,t,\n")
        self.assertEqual(HEADER + "A\tu\tn\ts\t2025-01-01\nB\tv\tm\tt\t\n", self.output_of("labels", path))

    def test_a_word_is_found_in_letters_of_either_case(self):
        path = os.path.join(TOP, "examples", "solar", "tariff.csv")
        row = "HOME-NM\tValley Power\tResidential Service with net metering\tResidential\t2019-01-01\n"
        self.assertEqual(HEADER + row, self.output_of("labels", path, "NET Met"))

    def test_all_words_have_to_stand_in_some_column(self):
        path = self.file("a.csv", "label,name,utility\nA,north,power\nB,south,power\nC,north,gas\n")
        self.assertEqual(HEADER + "A\tpower\tnorth\t\t\n", self.output_of("labels", path, "power", "north"))

    def test_other_columns_are_not_searched(self):
        path = self.file("a.csv", "label,description\nA,north\n")
        self.assertEqual(HEADER, self.output_of("labels", path, "north"))

    def test_no_match_is_said_beside_the_header(self):
        path = self.file("a.csv", "label\nA\n")
        self.assertEqual((0, HEADER, f"labels: note: {path}: no record has x\n"), self.run_tool("labels", path, "x"))

    def test_byte_order_mark_and_cr_lf_and_capitals_are_fine(self):
        path = self.file("a.csv", b"\xef\xbb\xbfLabel,Utility\r\nA,u\r\n\r\nB,v\r\n")
        self.assertEqual(HEADER + "A\tu\t\t\t\nB\tv\t\t\t\n", self.output_of("labels", path))

    def test_breaks_and_tabs_inside_a_cell_become_spaces(self):
        path = self.file("a.csv", 'label,name\nA,"x\ty\nz"\n')
        self.assertEqual(HEADER + "A\t\tx y z\t\t\n", self.output_of("labels", path))

    def test_a_start_in_seconds_is_shown_as_a_day(self):
        path = self.file("a.csv", "label,startdate\nA,1433116800\nB,-5\nC,99999999999\n")
        self.assertEqual(HEADER + "A\t\t\t\t2015-06-01\nB\t\t\t\t-5\nC\t\t\t\t5138-11-16\n", self.output_of("labels", path))

    def test_bytes_that_are_no_utf8_do_not_stop_the_list(self):
        path = self.file("a.csv", b"label,name\nA,caf\xe9\nB,x\n")
        self.assertIn("B\t\tx\t\t\n", self.output_of("labels", path))

    def test_a_row_of_another_length_is_told(self):
        path = self.file("a.csv", "label,name\nA,x\nB\nC,1,2\n")
        status, output, notes = self.run_tool("labels", path)
        self.assertEqual((0, 4), (status, output.count("\n")))
        self.assertIn("line 3: another number of cells than the header has, in 2 rows", notes)

    def test_memory_does_not_grow_with_the_file(self):
        path = self.file("a.csv", "label,name\n" + "".join(f"L{number},{'x' * 1000}\n" for number in range(50000)))
        code = (
            "import resource, runpy, sys\n"
            "resource.setrlimit(resource.RLIMIT_DATA, (36 << 20, 36 << 20))\n"
            f"sys.argv = ['labels', {path!r}, 'L49999']\n"
            f"sys.path.insert(0, {os.path.join(TOP, 'tools')!r})\n"
            f"runpy.run_path({os.path.join(TOP, 'tools', 'labels')!r}, run_name='__main__')\n"
        )
        script = self.file("limited.py", code)
        self.assertIn("L49999", self.output_of(script))

    def test_a_quote_that_is_never_closed_ends_with_its_line(self):
        path = self.file("a.csv", 'label,name\nA,"' + "x" * (1 << 24) + "\ny\n")
        self.assertIn("line 2: ", self.error_of("labels", path))

    def test_bad_files_end_with_one_line_that_names_them(self):
        for path in self.bad_inputs():
            with self.subTest(path):
                self.assertIn(path, self.error_of("labels", path))

    def test_semicolons_are_told(self):
        self.assertIn("line 1: the header has none of the columns", self.error_of("labels", self.file("a.csv", "label;name\nA;x\n")))

    def test_help(self):
        self.assert_help("labels")


if __name__ == "__main__":
    unittest.main()
