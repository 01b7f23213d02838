"""Tests of tools/explain."""

import glob
import os
import sys
import unittest

sys.path.insert(0, os.path.dirname(os.path.abspath(__file__)))
from tool_runner import TOP, ToolTest

sys.path.insert(0, os.path.join(TOP, "tools"))
from lib import refusals

PAGE = """# Refusals

| line | status | where |
|---|---|---|
| `refused words 23 NotYet` | 1 | no words that the program takes |
| `refused record ..` | 2 | below |

Words are refused all alike: look at the help.

## A record

### Schedules: `energyweekdayschedule`

| number and name | when | example | what to do |
|---|---|---|---|
| 5 Grid | no grid | `refused record 5 Grid energyweekdayschedule 3 [[x` | write a grid |

### A record behind the readings

| number and name | when | example | what to do |
|---|---|---|---|
| 15 HourlyRule | not hourly | `refused record 15 HourlyRule dgrules 0 x` | add up |

## Readings

| line | when | an example | what to do |
|---|---|---|---|
| `2 Start 0`, `2 Start 1` | the first starts | row 0 | two digits |
| `5 Count HAVE 2` | too few | one row | give all |
| `5 Count HAVE NEED` | another count | | look for a gap |

Then:

| line | when | an example | what to do |
|---|---|---|---|
| `2 Start ROW` | no start, as above | row 24 | midnight |

## A battery

| line | when | an example | what to do |
|---|---|---|---|
| `3 Missing capacity` | no capacity | | set it |
| `6 Range ROW` | out of its range | | look at the number |
| `6 Range ROW` | floor above the capacity | | likewise |

So `6 Range ROW` says two things.

## A schedule

| line | when | an example | what to do |
|---|---|---|---|
| `4 Mode ROW` | no such mode | | copy the name |
"""


class Explain(ToolTest):
    def explained(self, *words):
        """What the test's page says of a line, on one line."""
        return " ".join(self.output_of("explain", "--page", self.file("page.md", PAGE), *words).split())

    def of_the_page(self, *words):
        """What the page of this repository says of a line, on one line."""
        return " ".join(self.output_of("explain", *words).split())

    def test_the_line_is_one_word_or_several_or_standard_input(self):
        line = "refused record 4 Decimal energyratestructure/period0/tier0rate 1 0.1x"
        output = self.output_of("explain", line)
        self.assertEqual(output, self.output_of("explain", *line.split()))
        self.assertEqual(output, self.output_of("explain", "-", given=f"\nother\n  {line}\n".encode()))

    def test_a_number_of_energy_is_explained_with_its_detail(self):
        text = self.of_the_page("refused record 4 Decimal energyratestructure/period7/tier0rate 1 0.1x")
        self.assertIn("about: Energy tiers", text)
        self.assertIn("write a plain decimal", text)
        self.assertIn("detail 1: it is no decimal", text)
        self.assertEqual(1, text.count("about:"))

    def test_what_is_said_as_for_another_structure_is_followed(self):
        text = self.of_the_page("refused record 4 Decimal flatdemandstructure/period0/tier0rate 3 x")
        places = [text.index(f"about: {title}") for title in ("Flat demand", "Demand", "Energy tiers")]
        self.assertEqual(sorted(places), places)
        self.assertIn("detail 3: it has more than 18 decimals", text)

    def test_the_column_chooses_among_entries_of_one_number(self):
        for column, title in (
            ("lookbackpercent", "Ratchets"), ("demandratchetpercentage7", "Ratchets"), ("mincharge", "Charges"),
            ("fueladjustmentsmonthly3", "What isn't billed"), ("coincidentratestructure/period2/tier1adj", "What isn't billed"),
        ):
            with self.subTest(column):
                text = self.of_the_page(f"refused record 4 Decimal {column} 1 x")
                self.assertEqual(1, text.count("about: "))
                self.assertIn(f"about: {title}", text)

    def test_a_cell_that_begins_with_a_minus_is_no_option(self):
        text = self.of_the_page("refused", "record", "22", "Fraction", "demandratchetpercentage1", "0", "-x")
        self.assertIn("checked before: a month's number", text)

    def test_the_detail_chooses_where_the_page_names_it(self):
        text = self.of_the_page("refused record 5 Grid flatdemandmonths 4 [0,1")
        self.assertEqual(1, text.count("about:"))
        self.assertEqual(2, self.of_the_page("refused record 5 Grid flatdemandmonths 0 x").count("about:"))

    def test_every_refusal_of_a_record_in_the_cases_is_explained(self):
        with open(os.path.join(TOP, "docs", "REFUSALS.md"), encoding="utf-8") as file:
            page = refusals.Page(file.read())
        lines = set()
        for path in glob.glob(os.path.join(TOP, "cases", "*.txt")):
            with open(path, encoding="utf-8", errors="replace") as file:
                lines |= {line[len("prints "):].strip() for line in file if line.startswith("prints refused record ")}
        self.assertGreater(len(lines), 30)
        for line in sorted(lines):
            with self.subTest(line):
                refusal = refusals.read_line(line)
                found = refusals.with_references(page, refusal, refusals.entries_for(page, refusal))
                self.assertTrue(found)
                self.assertTrue(any(refusals.advice_of(page, refusal, entry) for entry in found))
                self.assertLess(len(found), 4)

    def test_words_are_explained_by_their_paragraph(self):
        self.assertIn("what to do: Words are refused all alike", self.explained("refused words 23 NotYet"))

    def test_a_title_that_names_a_schedule_column_is_of_the_record(self):
        self.assertIn("what to do: write a grid", self.explained("refused record 5 Grid energyweekdayschedule 3 [[x"))
        self.assertIn("what to do: add up", self.explained("refused record 15 HourlyRule dgrules 0 Net Billing Hourly"))

    def test_numbers_in_a_line_choose_before_placeholders(self):
        self.assertIn("when: the first starts what to do: two digits", self.explained("refused readings 2 Start 1"))
        self.assertIn("when: too few", self.explained("refused readings 5 Count 1 2"))
        self.assertIn("when: another count", self.explained("refused readings 5 Count 671 672"))
        self.assertIn("what to do: set it", self.explained("refused battery 3 Missing capacity"))

    def test_a_row_is_told_as_a_line_of_the_file(self):
        text = self.explained("refused readings 2 Start 24")
        self.assertIn("row: 24 is line 26 of the file", text)
        self.assertIn("what to do: midnight", text)
        self.assertIn("row: 5 is line 7", self.explained("refused schedule 4 Mode 5"))

    def test_all_entries_that_fit_are_told_with_the_page_s_note(self):
        text = self.explained("refused battery 6 Range 0")
        self.assertIn("what to do: look at the number about:", text)
        self.assertIn("what to do: likewise: look at the number", text)
        self.assertIn("note: So `6 Range ROW` says two things.", text)

    def test_a_line_that_is_no_refusal_is_an_error(self):
        for line in (
            "no schedule", "not feasible at interval 3", "dispatch plan", "refused", "refused house 1 X", "refused record x Decimal", "\x1b[31m",
        ):
            with self.subTest(line):
                self.assertIn("is no refusal", self.error_of("explain", line))

    def test_a_refusal_that_the_page_has_not_is_an_error(self):
        for line in ("refused record 99 Decimal x 1", "refused record 4 Decimals x 1", "refused schedule 6 Range 1"):
            with self.subTest(line):
                self.assertIn("nothing is said there of", self.error_of("explain", line))

    def test_empty_standard_input_and_bytes_are_errors(self):
        self.assertIn("there is no line", self.error_of("explain", "-"))
        self.assertIn("this isn't UTF-8", self.error_of("explain", "-", given=b"refused \xff"))

    def test_a_page_that_cannot_be_read_is_an_error(self):
        for path in self.bad_inputs():
            with self.subTest(path):
                self.assertIn(path, self.error_of("explain", "--page", path, "refused record 1 NoLabel none 0"))

    def test_no_line_at_all_is_a_wrong_word(self):
        self.assertEqual(2, self.run_tool("explain")[0])

    def test_help(self):
        self.assert_help("explain")


if __name__ == "__main__":
    unittest.main()
