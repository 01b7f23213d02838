"""Tests of tools/battery."""

import fractions
import itertools
import math
import os
import sys
import unittest

sys.path.insert(0, os.path.dirname(os.path.abspath(__file__)))
from tool_runner import HAS_PROGRAM, TOP, ToolTest, run_program

SHEET = ("--kwh", "13.5", "--kw", "5", "--efficiency", "0.9")
FIRST = os.path.join(TOP, "examples", "first")


def settings(text):
    """The numbers that a battery file sets."""
    return {name: int(value) for kind, name, value, *_ in (line.split(",") for line in text.splitlines()) if kind == "set"}


def modes(text):
    """The modes of a battery file: their levels and Wh."""
    return {name: (int(change), int(grid)) for kind, name, change, grid, *_ in (line.split(",") for line in text.splitlines()) if kind == "mode"}


class Battery(ToolTest):
    def usage_of(self, *words):
        """What is said of wrong words."""
        status, output, notes = self.run_tool("battery", *words)
        self.assertEqual((2, ""), (status, output), notes)
        self.assertNotIn("Traceback", notes)
        return notes

    def test_the_help_says_what_it_is(self):
        self.assert_help("battery")

    def test_a_level_divides_the_full_power(self):
        text = self.output_of("battery", *SHEET)
        self.assertEqual({"capacity": 54}, settings(text))
        self.assertEqual(
            {
                "idle": (0, 0),
                "charge": (18, 5000),
                "charge-half": (9, 2500),
                "charge-least": (1, 278),
                "discharge": (-20, -5000),
                "discharge-half": (-10, -2500),
                "discharge-quarter": (-5, -1250),
                "discharge-least": (-1, -250),
            },
            modes(text),
        )

    def test_levels_and_powers_are_told(self):
        notes = self.run_tool("battery", *SHEET)[2]
        self.assertIn("one level is 250 Wh; 54 levels are 13.5 kWh of 13.5", notes)
        self.assertIn("charge-half: 9 levels and 2500 Wh in 60 minutes, 2.5 kW", notes)

    def test_a_plan_never_promises_more_than_the_sheet(self):
        for kwh, kilowatts, efficiency, minutes in itertools.product(("0.7", "9.8", "100"), ("0.9", "3.3", "11"), ("0.87", "1"), ("15", "60")):
            words = ("--kwh", kwh, "--kw", kilowatts, "--efficiency", efficiency, "--minutes", minutes)
            status, text, notes = self.run_tool("battery", *words)
            if status:
                self.assertIn("battery: error: no level of which 255", notes)
                continue
            found, capacity = modes(text), settings(text)["capacity"]
            level_wh = -found.get("discharge-least", found["discharge"])[1] // -found.get("discharge-least", found["discharge"])[0]
            with self.subTest(words=words):
                self.assertTrue(1 <= capacity <= 255)
                self.assertLessEqual(capacity * level_wh, fractions.Fraction(kwh) * 1000)
                for change, grid in found.values():
                    self.assertLessEqual(abs(grid), fractions.Fraction(kilowatts) * 1000 * int(minutes) / 60)
                    kept = change * level_wh
                    self.assertEqual(grid, kept if change <= 0 else math.ceil(kept / fractions.Fraction(efficiency)))

    def test_the_number_of_levels_can_be_given(self):
        text = self.output_of("battery", *SHEET, "--levels", "27")
        self.assertEqual(27, settings(text)["capacity"])
        self.assertEqual((9, 5000), modes(text)["charge"])
        self.assertIn("one of 2 levels is 6750 Wh, for which 7500 Wh are drawn", self.error_of("battery", *SHEET, "--levels", "2"))
        for count in ("0", "256", "1.5", "x"):
            self.usage_of(*SHEET, "--levels", count)

    def test_a_battery_too_large_for_its_power_is_refused(self):
        self.assertIn("no level of which 255", self.error_of("battery", "--kwh", "400", "--kw", "1", "--efficiency", "90%", "--minutes", "15"))

    def test_every_power_has_each_whole_number_of_levels(self):
        text = self.output_of("battery", *SHEET, "--levels", "27", "--every-power")
        self.assertEqual(list(range(9, 0, -1)), [change for change, _ in modes(text).values() if change > 0])
        self.assertEqual(list(range(-10, 0)), [change for change, _ in modes(text).values() if change < 0])
        many = modes(self.output_of("battery", *SHEET, "--levels", "200", "--every-power"))
        self.assertEqual(63, len(many))
        self.assertTrue({"charge", "charge-least", "discharge", "discharge-least"} <= set(many))

    def test_states_are_read_in_kwh_and_percent(self):
        text = self.output_of("battery", *SHEET, "--start", "5", "--end", "50%", "--reserve", "1.1", "--no-export")
        self.assertEqual({"capacity": 54, "floor": 5, "start": 20, "end": 27, "max_export_wh": 0}, settings(text))
        self.assertEqual(54, settings(self.output_of("battery", *SHEET, "--start", "100%"))["start"])

    def test_a_start_at_the_reserve_is_the_reserve(self):
        text = self.output_of("battery", *SHEET, "--start", "20%", "--reserve", "20%")
        self.assertEqual((11, 11), (settings(text)["floor"], settings(text)["start"]))

    def test_states_outside_are_refused(self):
        self.assertIn("the start is below the reserve", self.usage_of(*SHEET, "--start", "19%", "--reserve", "20%"))
        for option in ("--start", "--end", "--reserve"):
            for state in ("13.6", "101%", "-1", "x", "%"):
                self.usage_of(*SHEET, option, state)

    def test_wrong_numbers_are_refused(self):
        for name, values in {"--kwh": ("0", "-1", "x", "nan", "1e9", "1e999999999"), "--kw": ("0", "inf"), "--efficiency": ("0", "90", "1.01")}.items():
            for value in values:
                words = [value if before == name else word for before, word in zip(("", *SHEET), SHEET)]
                self.usage_of(*words)
        self.usage_of()
        self.usage_of(*SHEET, "--minutes", "20")

    def test_an_efficiency_may_be_in_percent(self):
        self.assertEqual(self.output_of("battery", *SHEET), self.output_of("battery", *SHEET[:-1], "90%"))

    def test_the_file_is_written_whole_or_not_at_all(self):
        target = os.path.join(self.folder, "b.csv")
        self.assertEqual("", self.output_of("battery", *SHEET, "-o", target))
        with open(target, encoding="utf-8") as file:
            self.assertEqual(self.output_of("battery", *SHEET), file.read())
        self.error_of("battery", *SHEET, "-o", os.path.join(self.folder, "no", "b.csv"))
        self.error_of("battery", *SHEET, "-o", self.folder)
        self.assertEqual(["b.csv"], os.listdir(self.folder))

    @unittest.skipUnless(HAS_PROGRAM, "the program isn't built")
    def test_the_program_takes_the_file(self):
        for words in ((), ("--every-power", "--reserve", "10%", "--start", "50%", "--end", "30%"), ("--levels", "255", "--every-power", "--no-export")):
            path = os.path.join(self.folder, "b.csv")
            self.output_of("battery", *SHEET, *words, "-o", path)
            tariff, readings = os.path.join(FIRST, "tariff.csv"), os.path.join(FIRST, "readings.csv")
            status, text = run_program("plan", "--records", tariff, "--label", "L", "--readings", readings, "--battery", path)
            self.assertEqual(0, status, text)
            self.assertIn("verdict least", text)


if __name__ == "__main__":
    unittest.main()
