"""Tests of tools/readings."""

import datetime
import os
import sys
import unittest

sys.path.insert(0, os.path.dirname(os.path.abspath(__file__)))
from long_text import LongTextTest

MINUTE = datetime.timedelta(minutes=1)


def february(minutes=60, year=2025):
    """The starts of a February."""
    first = datetime.datetime(year, 2, 1)
    return [first + minutes * place * MINUTE for place in range(28 * 1440 // minutes)]


def export(form="%Y-%m-%d %H:%M", value="1.5", starts=None, header="Start,kWh", separator=","):
    """An export with one value everywhere."""
    rows = [f"{start.strftime(form)}{separator}{value}" for start in (february() if starts is None else starts)]
    return "\n".join([header.replace(",", separator), *rows]) + "\n"


def readings(value="1500", starts=None):
    """The readings file of one value everywhere."""
    return "start,net_wh\n" + "".join(f"{start:%Y-%m-%dT%H:%M},{value}\n" for start in (february() if starts is None else starts))


class Readings(LongTextTest):
    def of(self, content, *words):
        """What the tool makes of a file."""
        return self.output_of("readings", self.file("e.csv", content), *words)

    def error(self, content, *words):
        """What the tool says of a bad file."""
        return self.error_of("readings", self.file("e.csv", content), *words)

    def notes(self, content, *words):
        """What the tool tells beside its output."""
        status, _, notes = self.run_tool("readings", self.file("e.csv", content), *words)
        self.assertEqual(0, status, notes)
        return notes

    def test_the_help_says_what_it_is(self):
        self.assert_help("readings")

    def test_kwh_of_the_first_two_columns_become_wh(self):
        self.assertEqual(readings(), self.of(export()))
        self.assertEqual("", self.notes(export()))

    def test_the_output_is_the_same_again(self):
        self.assertEqual(readings(), self.of(readings(), "--unit", "Wh"))

    def test_each_unit_has_its_factor(self):
        self.assertEqual(readings("2"), self.of(export(value="2"), "--unit", "Wh"))
        quarters = february(15)
        self.assertEqual(readings("500", quarters), self.of(export(value="2", starts=quarters), "--unit", "kW"))

    def test_quarters_and_half_hours_are_found(self):
        for minutes in (15, 30):
            starts = february(minutes)
            self.assertEqual(readings(starts=starts), self.of(export(starts=starts)))
            self.assertIn(f"the starts are {minutes} minutes apart", self.error(export(starts=starts), "--minutes", "60"))

    def test_other_lengths_are_refused(self):
        self.assertIn("10 minutes apart", self.error(export(starts=february(10))))

    def test_each_separator_is_found(self):
        for separator in ",;\t":
            self.assertEqual(readings(), self.of(export(separator=separator)))

    def test_a_decimal_comma_is_read_between_semicolons(self):
        self.assertEqual(readings(), self.of(export(value="1,5", separator=";", form="%d.%m.%Y %H:%M")))

    def test_each_date_form_is_read(self):
        for form in ("%Y-%m-%dT%H:%M:%S", "%m/%d/%Y %H:%M", "%d/%m/%Y %H:%M", "%d.%m.%Y %H:%M", "%m/%d/%Y %I:%M %p", "%m/%d/%y %I:%M%p", "%Y/%m/%d %H:%M"):
            with self.subTest(form=form):
                self.assertEqual(readings(), self.of(export(form)))

    def test_a_form_of_its_own_is_read_by_date(self):
        self.assertEqual(readings(), self.of(export("%d %b %Y %Hh%M"), "--date", "%d %b %Y %Hh%M"))
        self.assertIn("line 2", self.error(export("%d %b %Y %Hh%M")))

    def test_days_that_could_be_months_ask_for_the_form(self):
        starts = [start for start in february() if start.day < 13]
        self.assertIn("--date", self.error(export("%m/%d/%Y %H:%M", starts=starts)))
        status, _, notes = self.run_tool("readings", self.file("e.csv", export("%m/%d/%Y %H:%M", starts=starts)), "--date", "%m/%d/%Y %H:%M")
        self.assertEqual(1, status)
        self.assertIn("2025-02-13T00:00 is missing", notes)

    def test_days_and_months_in_both_orders_are_refused(self):
        content = export("%m/%d/%Y %H:%M").replace("02/03/2025 05:00", "13/02/2025 05:00")
        self.assertIn("others the month", self.error(content))

    def test_date_and_time_stand_in_two_columns_under_a_heading(self):
        rows = [f"{start:%m/%d/%Y},{start:%H:%M},x,1.5" for start in february()]
        content = "\ufeffName,A House\n\nDate,Time,Note,Usage\n" + "\r\n".join(rows)
        for words in (("--start", "Date,Time", "--import", "Usage"), ("--start", "1,2", "--import", "4"), ("--start", "date,TIME", "--import", "usage")):
            self.assertEqual(readings(), self.of(content, *words))
        self.assertIn("--start Date,Time", self.error(content))

    def test_a_missing_column_is_named(self):
        self.assertIn("there is no column 'Usage'; the header has Start, kWh", self.error(export(), "--import", "Usage"))
        self.assertIn("column 7 is read", self.error(export(), "--import", "7"))

    def test_a_doubled_column_is_chosen_by_number(self):
        content = export(header="Start,kWh,kWh", value="1.5,7")
        self.assertIn("2 columns have the name", self.error(content, "--import", "kWh"))
        self.assertEqual(readings("7000"), self.of(content, "--import", "3"))

    def test_the_export_is_subtracted(self):
        content = export(header="Start,In,Out", value="0.25,1.75")
        self.assertEqual(readings("-1500"), self.of(content, "--export", "Out"))
        self.assertIn("below 0", self.error(export(value="0.25,-1"), "--export", "3"))
        blank = content.replace("0.25,1.75", "1.5,", 1)
        self.assertIn("1 empty cells of the export", self.notes(blank, "--export", "Out"))

    def test_a_half_goes_to_the_even_number_and_is_told_once(self):
        self.assertEqual(readings("2"), self.of(export(value="0.0025")))
        self.assertEqual(readings("4"), self.of(export(value="0.0035")))
        self.assertEqual(1, self.notes(export(value="0.0025")).count("672 readings weren't whole Wh"))

    def test_no_digit_is_lost(self):
        self.assertEqual(readings("3"), self.of(export(value="0.00250000000000000000000000000000000000001")))

    def test_ends_are_moved_back(self):
        ends = [start + 60 * MINUTE for start in february()]
        self.assertEqual(readings(), self.of(export(starts=ends), "--ends"))
        self.assertEqual(readings(), self.of(export(starts=ends).replace("2025-02-02 00:00", "2025-02-01 24:00"), "--ends"))

    def test_the_order_of_rows_does_not_matter(self):
        self.assertEqual(readings(), self.of(export(starts=list(reversed(february())))))

    def test_the_one_whole_month_is_chosen(self):
        starts = [datetime.datetime(2025, 1, 31, 23)] + february() + [datetime.datetime(2025, 3, 1)]
        self.assertEqual(readings(), self.of(export(starts=starts)))

    def test_of_several_months_one_has_to_be_named(self):
        first = datetime.datetime(2025, 1, 1)
        content = export(starts=[first + 60 * place * MINUTE for place in range(59 * 24)])
        self.assertIn("2 whole months: 2025-01, 2025-02; choose one by --month", self.error(content))
        self.assertEqual(readings(), self.of(content, "--month", "2025-02"))
        self.assertIn("2025-04-01T00:00 is missing", self.error(content, "--month", "2025-04"))
        self.assertEqual(2, self.run_tool("readings", "x", "--month", "2025-13")[0])

    def test_a_missing_hour_is_named_and_filled_only_where_asked(self):
        starts = february()
        content = export(starts=starts[:100] + starts[101:])
        self.assertIn("line 101: behind it the interval 2025-02-05T04:00 is missing", self.error(content))
        self.assertIn("2025-02-05T04:00,0\n", self.of(content, "--fill", "zero"))
        self.assertEqual(readings(), self.of(content, "--fill", "previous"))
        self.assertIn("2025-02-05T04:00 is missing: the reading before it is taken", self.notes(content, "--fill", "previous"))

    def test_several_missing_hours_have_the_last_reading_before_them(self):
        starts = february()
        self.assertEqual(readings(), self.of(export(starts=starts[:100] + starts[103:]), "--fill", "previous"))

    def test_a_missing_first_hour_has_no_reading_before_it(self):
        content = export(starts=february()[1:])
        self.assertIn("before it the interval 2025-02-01T00:00 is missing", self.error(content))
        self.assertIn("none before it", self.error(content, "--fill", "previous"))

    def test_an_empty_reading_is_a_missing_one(self):
        content = export().replace("2025-02-05 04:00,1.5", "2025-02-05 04:00,")
        self.assertIn("line 102: the interval 2025-02-05T04:00 has an empty reading", self.error(content))
        self.assertEqual(readings(), self.of(content, "--fill", "previous"))

    def test_a_doubled_hour_is_named_and_added_up_only_where_asked(self):
        starts = february()
        content = export(starts=starts[:101] + starts[100:])
        self.assertIn("line 103: the interval 2025-02-05T04:00 stands also in line 102", self.error(content))
        self.assertEqual(readings().replace("05T04:00,1500", "05T04:00,3000"), self.of(content, "--fill", "zero"))
        self.assertIn("lines 102 and 103: the readings are added up", self.notes(content, "--fill", "zero"))

    def test_a_start_between_intervals_is_refused(self):
        self.assertIn("line 3: 2025-02-01T01:05 isn't the start", self.error(export().replace("01 01:00", "01 01:05")))

    def test_what_is_no_number_or_date_is_named_with_its_line(self):
        self.assertIn("line 4: 'x' isn't a number", self.error(export().replace("02:00,1.5", "02:00,x")))
        for number in ("nan", "1_0", "1e", "--1", "١"):
            self.assertIn("isn't a number", self.error(export(value=number)))
        self.assertIn("line 4: the start '2025-02-30 02:00' isn't read", self.error(export().replace("02-01 02:00", "02-30 02:00")))
        self.assertIn("seconds", self.error(export(form="%Y-%m-%d %H:%M:59")))

    def test_what_is_too_large_is_refused_at_once(self):
        for number in ("1e999999999999999999999", "1e999999", "1e-999999999", "1e7", "9" * 5000):
            self.assertIn("line 2: ", self.error(export(value=number)))

    def test_a_title_that_names_another_unit_is_told(self):
        self.assertIn("its title says Wh: --unit Wh", self.notes(export(header="Start,Usage (Wh)")))
        self.assertIn("its title says kWh", self.notes(export(header="Start,Usage kWh"), "--unit", "kW"))

    def test_offsets_are_told(self):
        self.assertIn("the offset -08:00", self.notes(export("%Y-%m-%dT%H:%M:%S-08:00")))

    def test_bad_files_end_with_one_line(self):
        for path in self.bad_inputs():
            with self.subTest(path=path):
                self.assertIn(path, self.error_of("readings", path))
                self.error_of("readings", path, "--start", "Date,Time", "--date", "%d")

    def test_nothing_is_written_where_the_input_is_bad(self):
        target = self.file("out.csv", "as before")
        self.error_of("readings", self.file("e.csv", "x"), "-o", target)
        with open(target, encoding="utf-8") as file:
            self.assertEqual("as before", file.read())
        self.assertEqual(["e.csv", "out.csv"], sorted(os.listdir(self.folder)))
        self.assertEqual("", self.of(export(), "-o", target))
        with open(target, encoding="utf-8") as file:
            self.assertEqual(readings(), file.read())
        self.error_of("readings", self.file("e.csv", export()), "-o", os.path.join(self.folder, "no", "out.csv"))

    def test_standard_input_is_read(self):
        self.assertEqual(readings(), self.output_of("readings", "-", given=export().encode()))


if __name__ == "__main__":
    unittest.main()
