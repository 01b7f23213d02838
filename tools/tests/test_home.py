"""Tests of examples/home: its files are what the tools make, and the program takes them."""

import csv
import os
import sys
import unittest

sys.path.insert(0, os.path.dirname(os.path.abspath(__file__)))
from long_text import LongTextTest
from tool_runner import HAS_PROGRAM, TOP, run_program

HOME = os.path.join(TOP, "examples", "home")
LABEL = "5f3c1e0b2d7a4c6e8a90b1d2"
COLUMNS = ("--start", "Date,Start Time", "--import", "Import (kWh)", "--export", "Export (kWh)")
SHEET = ("--kwh", "13.5", "--kw", "5", "--efficiency", "0.9", "--minutes", "30")


def path_of(name):
    """A file of the example."""
    return os.path.join(HOME, name)


def content_of(name):
    """What a file of the example holds."""
    with open(path_of(name), encoding="utf-8", newline="") as file:
        return file.read()


def bill_of(text):
    """The line of the bill."""
    return next(line for line in text.splitlines() if line.startswith("bill "))


class Home(LongTextTest):
    def run_command(self, command, readings=path_of("readings.csv"), *words):
        """What the program prints for the example."""
        status, text = run_program(command, "--records", path_of("tariff.csv"), "--label", LABEL, "--readings", readings, *words)
        self.assertEqual(0, status, text)
        return text

    def plan(self, battery=path_of("battery.csv")):
        """The plan of the example."""
        return self.run_command("plan", path_of("readings.csv"), "--battery", battery)

    def test_the_readings_are_what_the_tool_makes(self):
        self.assertEqual(content_of("readings.csv"), self.output_of("readings", path_of("export.csv"), *COLUMNS))

    def test_the_battery_is_what_the_tool_makes(self):
        self.assertEqual(content_of("battery.csv"), self.output_of("battery", *SHEET, "--every-power"))

    def test_the_readme_has_the_commands(self):
        text = content_of("README.md")
        for command in (
            'tools/readings examples/home/export.csv --start "Date,Start Time" --import "Import (kWh)" --export "Export (kWh)" -o readings.csv',
            f"tools/battery {' '.join(SHEET)} --every-power -o battery.csv",
        ):
            self.assertIn(f"    {command}\n", text)

    @unittest.skipUnless(HAS_PROGRAM, "the program isn't built")
    def test_the_readme_has_the_first_lines_of_the_plan(self):
        first = "".join(f"    {line}\n" for line in self.plan().splitlines()[:15])
        self.assertIn(first, content_of("README.md"))

    @unittest.skipUnless(HAS_PROGRAM, "the program isn't built")
    def test_the_readme_has_the_bills(self):
        few = os.path.join(self.folder, "few.csv")
        self.output_of("battery", *SHEET, "-o", few)
        for text in (self.run_command("bill"), self.plan(), self.plan(few)):
            self.assertIn(bill_of(text).split()[1], content_of("README.md"))

    @unittest.skipUnless(HAS_PROGRAM, "the program isn't built")
    def test_the_schedule_of_the_plan_has_its_bill(self):
        plan, schedule = self.file("plan.txt", self.plan()), os.path.join(self.folder, "schedule.csv")
        self.output_of("plot", plan, "--schedule", schedule)
        billed = self.run_command("bill", path_of("readings.csv"), "--battery", path_of("battery.csv"), "--schedule", schedule)
        with open(plan, encoding="utf-8") as file:
            self.assertEqual(bill_of(file.read()), bill_of(billed))

    @unittest.skipUnless(HAS_PROGRAM, "the program isn't built")
    def test_the_flow_less_the_mode_is_the_reading(self):
        grids = {row["name"]: int(row["grid_wh"]) for row in csv.DictReader(content_of("battery.csv").splitlines()) if row["kind"] == "mode"}
        readings = [int(row["net_wh"]) for row in csv.DictReader(content_of("readings.csv").splitlines())]
        lines = [line.split() for line in self.plan().splitlines() if line[:1].isdigit()]
        self.assertEqual(readings, [int(flow) - grids[mode] for _, mode, _, flow in lines])

    @unittest.skipUnless(HAS_PROGRAM, "the program isn't built")
    def test_readings_made_from_kwh_have_the_same_bill(self):
        solar = os.path.join(TOP, "examples", "solar")
        with open(os.path.join(solar, "readings.csv"), encoding="utf-8") as file:
            rows = list(csv.DictReader(file))
        lines = []
        for row in rows:
            net = int(row["net_wh"])
            sign = "-" if net < 0 else ""
            lines.append(f"{row['start']};{sign}{abs(net) // 1000},{abs(net) % 1000:03d}\n")
        made = os.path.join(self.folder, "made.csv")
        self.output_of("readings", self.file("kwh.csv", "Beginn;Bezug in kWh\n" + "".join(lines)), "-o", made)
        words = ("--records", os.path.join(solar, "tariff.csv"), "--label", "HOME-1", "--readings")
        own = run_program("bill", *words, os.path.join(solar, "readings.csv"))
        self.assertEqual(0, own[0], own[1])
        self.assertEqual(own, run_program("bill", *words, made))


if __name__ == "__main__":
    unittest.main()
