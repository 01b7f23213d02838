"""Tests of tools/plot."""

import importlib.util
import os
import subprocess
import sys
import unittest

sys.path.insert(0, os.path.dirname(os.path.abspath(__file__)))
from long_text import LongTextTest
from tool_runner import TOP

HEAD = """dispatch plan
label L
month 2025-02
minutes 60
verdict least
bill 107.60
metered 117.60
boxes 7
period 0 import 676000 charge 67.60
credit 0.00
flat peak 4000 floor 0 charge 40.00
fixed 0.00
sum 107.60
minimum none
"""
STARTS = [f"2025-02-{day:02d}T{hour:02d}:00" for day in range(1, 29) for hour in range(24)]
PLAN = HEAD + "".join(f"{start} {'charge 1 2000' if hour == 0 else 'idle 1 -1000'}\n" for hour, start in enumerate(STARTS))
SCHEDULE = "start,mode\n" + "".join(f"{start},{'charge' if hour == 0 else 'idle'}\n" for hour, start in enumerate(STARTS))
BATTERY = "kind,name,change,grid_wh,low,high\nset,capacity,4,,,\nmode,idle,0,0,,\nmode,charge,1,1000,,\n"
HAS_MATPLOTLIB = importlib.util.find_spec("matplotlib") is not None


class Plot(LongTextTest):
    def error(self, content):
        """What is said of a bad plan."""
        return self.error_of("plot", self.file("plan.txt", content), "--schedule", "-")

    def test_the_help_says_what_it_is(self):
        self.assert_help("plot")

    def test_the_plan_becomes_a_schedule(self):
        self.assertEqual(SCHEDULE, self.output_of("plot", self.file("plan.txt", PLAN), "--schedule", "-"))
        self.assertEqual(SCHEDULE, self.output_of("plot", "-", "--schedule", "-", given=PLAN.encode()))
        target = os.path.join(self.folder, "s.csv")
        self.assertEqual("", self.output_of("plot", self.file("plan.txt", PLAN), "--schedule", target))
        with open(target, encoding="utf-8") as file:
            self.assertEqual(SCHEDULE, file.read())
        self.assertEqual(["plan.txt", "s.csv"], sorted(os.listdir(self.folder)))

    def test_each_line_of_the_head_has_its_form(self):
        lines = PLAN.splitlines(keepends=True)
        for place in range(14):
            with self.subTest(line=lines[place]):
                self.assertIn(f"line {place + 1}: ", self.error("".join(lines[:place] + ["nonsense\n"] + lines[place + 1 :])))
                name = lines[place].split()[0]
                self.assertIn(f"line {place + 1}: no line of a plan", self.error("".join(lines[:place] + [f"{name} \u00e9\n"] + lines[place + 1 :])))

    def test_lines_that_may_be_left_out_may_be(self):
        short = PLAN.replace("flat peak 4000 floor 0 charge 40.00\n", "").replace("period 0 import 676000 charge 67.60\n", "")
        self.assertEqual(SCHEDULE, self.output_of("plot", "-", "--schedule", "-", given=short.encode()))
        long = PLAN.replace("credit 0.00\n", "period 1 import 0 charge 0.00\ncredit 0.00\ngroup 2 peak 0 charge 0.00\n")
        long = long.replace("verdict least\nbill 107.60\n", "verdict gap budget\nbill 107.60\nlower 107.50\n")
        self.assertEqual(SCHEDULE, self.output_of("plot", "-", "--schedule", "-", given=long.encode()))

    def test_every_interval_has_to_stand_in_its_place(self):
        gap = PLAN.replace("2025-02-01T01:00 idle 1 -1000\n", "")
        self.assertIn("line 16: in place of 2025-02-01T01:00 stands 2025-02-01T02:00", self.error(gap))
        self.assertIn("the plan ends before 2025-02-01T00:00", self.error(HEAD))
        self.assertIn("in place of the end stands", self.error(PLAN + "2025-03-01T00:00 idle 1 0\n"))
        self.assertIn("line 15: no line of an interval", self.error(PLAN.replace("charge 1 2000", "charge 1 2000.5")))
        self.assertIn("line 15: no line of an interval", self.error(PLAN.replace("charge 1 2000", "charge 1 " + "9" * 5000)))

    def test_other_texts_of_the_program_are_no_plan(self):
        for text in ("no schedule\n", "dispatch bill\nlabel L\n", "refused record 23 NotYet none 2\n"):
            self.assertIn("line 1: ", self.error(text))

    def test_bad_files_end_with_one_line(self):
        for path in self.bad_inputs():
            with self.subTest(path=path):
                self.assertIn(path, self.error_of("plot", path))

    def test_the_battery_has_to_be_that_of_the_plan(self):
        plan = self.file("plan.txt", PLAN)
        battery = self.file("b.csv", BATTERY.replace("charge", "take"))
        self.assertIn("no mode charge", self.error_of("plot", plan, "--battery", battery))
        self.assertIn("line 4: 'x' isn't a number", self.error_of("plot", plan, "--battery", self.file("b.csv", BATTERY.replace("1000", "x"))))
        self.assertIn("line 1: a battery file begins with", self.error_of("plot", plan, "--battery", plan))
        for path in self.bad_inputs():
            self.assertIn(path, self.error_of("plot", plan, "--battery", path))

    def test_a_picture_ends_with_png_or_svg(self):
        self.assertIn("ends with .png or .svg", self.error_of("plot", self.file("plan.txt", PLAN), "-o", os.path.join(self.folder, "p.pdf")))

    def test_without_matplotlib_one_line_says_how_to_have_it(self):
        # an empty module in its place has none of its parts
        self.file("matplotlib.py", "")
        plan = self.file("plan.txt", PLAN)
        tool = os.path.join(TOP, "tools", "plot")
        environment = {**os.environ, "PYTHONPATH": self.folder}
        done = subprocess.run([sys.executable, tool, plan], capture_output=True, check=False, env=environment)
        self.assertEqual(1, done.returncode)
        self.assertEqual(b"plot: error: matplotlib isn't here: apt-get install python3-matplotlib\n", done.stderr)
        done = subprocess.run([sys.executable, tool, plan, "--schedule", "-"], capture_output=True, check=False, env=environment)
        self.assertEqual((0, SCHEDULE), (done.returncode, done.stdout.decode()))
        self.assertFalse(os.path.exists(os.path.join(self.folder, "plan.png")))

    @unittest.skipUnless(HAS_MATPLOTLIB, "matplotlib isn't here")
    def test_a_picture_is_drawn_next_to_the_plan(self):
        self.assertEqual("", self.output_of("plot", self.file("plan.txt", PLAN)))
        with open(os.path.join(self.folder, "plan.png"), "rb") as file:
            self.assertEqual(b"\x89PNG", file.read(4))

    @unittest.skipUnless(HAS_MATPLOTLIB, "matplotlib isn't here")
    def test_a_picture_is_the_same_each_time(self):
        plan, battery = self.file("plan.txt", PLAN), self.file("b.csv", BATTERY)
        drawn = []
        for name in ("a.svg", "b.svg"):
            target = os.path.join(self.folder, name)
            self.output_of("plot", plan, "--battery", battery, "-o", target)
            with open(target, "rb") as file:
                drawn.append(file.read())
        self.assertEqual(drawn[0], drawn[1])
        self.assertIn(b"<svg", drawn[0])

    @unittest.skipUnless(HAS_MATPLOTLIB, "matplotlib isn't here")
    def test_a_label_with_dollars_is_no_formula_and_any_year_is_drawn(self):
        for year, label in (("0001", "a$\\frac$b"), ("9999", "$x_$")):
            plan = PLAN.replace("2025-", f"{year}-").replace("label L", f"label {label}").replace(" 4000 floor", " 999999999999999999 floor")
            self.assertEqual("", self.output_of("plot", self.file("plan.txt", plan)))


if __name__ == "__main__":
    unittest.main()
