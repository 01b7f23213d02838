"""Tests of tools/columns."""

import os
import sys
import unittest

sys.path.insert(0, os.path.dirname(os.path.abspath(__file__)))
from tool_runner import HAS_PROGRAM, TOP, ToolTest, run_program


class Columns(ToolTest):
    def why(self, name, cells="1"):
        """What is said of one filled column."""
        path = self.file("one.csv", f"label,{name}\nL,{cells}\n")
        output = self.output_of("columns", path, "L")
        return output.rstrip("\n").partition("\t")[2]

    def test_misspelled_parts_are_told_with_the_nearest_name(self):
        for written, meant in (
            ("energyratestructure/period0/tier0rates", "energyratestructure/period0/tier0rate"),
            ("energyratestructure/period12/tier3sel", "energyratestructure/period12/tier3sell"),
            ("EnergyRateStructure/Period1/Tier0Rat", "energyratestructure/period1/tier0rate"),
            ("energyratestucture/period0/tier0rate", "energyratestructure/period0/tier0rate"),
            ("energyratestructure/period00/tier0rate", "energyratestructure/period0/tier0rate"),
            ("demandratestructures/period0/tier0adj", "demandratestructure/period0/tier0adj"),
            ("energyratestructure/perod2/tier1max", "energyratestructure/period2/tier1max"),
            ("energyratestructure.period3.tier1_rate", "energyratestructure/period3/tier1rate"),
            ("energyrate/period0/tier0rate", "energyratestructure/period0/tier0rate"),
            ("energyratestructure/period0rate", "energyratestructure/periodP/tierKrate"),
        ):
            with self.subTest(written):
                self.assertEqual(f"nearest {meant}", self.why(written))

    def test_misspelled_plain_names_are_told_with_the_nearest(self):
        for written, meant in (
            ("energyweekdayschedul", "energyweekdayschedule"),
            ("fixedchargesfirstmeter", "fixedchargefirstmeter"),
            ("mincharges", "mincharge"),
            ("flatdemandmonth03", "flatdemandmonth3"),
            ("flatdemandsmonth3", "flatdemandmonth3"),
            ("dgrule", "dgrules"),
        ):
            with self.subTest(written):
                self.assertEqual(f"nearest {meant}", self.why(written))

    def test_names_of_earlier_versions_are_told_with_todays(self):
        self.assertEqual("nearest fixedchargefirstmeter", self.why("fixedmonthlycharge"))
        self.assertEqual("nearest mincharge", self.why("minmonthlycharge"))
        self.assertEqual("nearest dgrules", self.why("usenetmetering"))

    def test_numbers_out_of_range_are_told(self):
        self.assertEqual("unknown: periods go from 0 to 35", self.why("energyratestructure/period36/tier0rate"))
        self.assertEqual("unknown: tiers go from 0 to 15", self.why("energyratestructure/period0/tier16rate"))
        self.assertEqual("unknown: months go from 1 to 12", self.why("flatdemandmonth13"))

    def test_a_name_that_is_like_none_is_unknown(self):
        self.assertEqual("unknown", self.why("xyz"))
        self.assertEqual("unknown: a tier's parts are max, unit, rate, adj, sell", self.why("energyratestructure/period0/tier0xyz"))

    def test_columns_that_are_read_are_not_listed(self):
        for name in (
            "energyratestructure/period35/tier15sell", "demandratestructure/period0/tier0adj", "flatdemandstructure/period0/tier0max",
            "coincidentratestructure/period0/tier0rate", "flatdemandmonths", "flatdemandmonth12", "demandratchetpercentage1",
            "fueladjustmentsmonthly", "lookbackpercent", "ANNUALMINCHARGE", "demandreactivepowercharge",
        ):
            with self.subTest(name):
                self.assertEqual("", self.why(name))

    def test_empty_cells_are_not_listed(self):
        self.assertEqual("", self.why("energyratestructure/period0/tier0rates", " \t"))

    def test_known_columns_that_nothing_is_read_from_are_not_used(self):
        for name in ("demandwindow", "fixedchargeeaaddl", "demandratestructure/period0/tier0unit", "coincidentratestructure/period0/tier0max"):
            with self.subTest(name):
                self.assertEqual("not used", self.why(name))

    def test_a_month_beside_its_list_is_not_used(self):
        path = self.file("a.csv", 'label,flatdemandmonth3,flatdemandmonths\nL,1,"[0]"\nM,1,\n')
        self.assertEqual("flatdemandmonth3\tnot used: the list in flatdemandmonths counts\n", self.output_of("columns", path, "L"))
        self.assertEqual("", self.output_of("columns", path, "M"))

    def test_of_two_columns_of_one_name_the_second_is_told(self):
        path = self.file("a.csv", "label,mincharge,MinCharge\nL,1,2\n")
        self.assertEqual("MinCharge\tdoubled: the first column of this name counts\n", self.output_of("columns", path, "L"))

    def test_what_needs_a_look_stands_first(self):
        path = self.file("a.csv", "label,utility,demandwindow,energyratestructure/period0/tier0sel\nL,u,15,1\n")
        self.assertEqual(
            "energyratestructure/period0/tier0sel\tnearest energyratestructure/period0/tier0sell\ndemandwindow\tnot used\nutility\tdescribed\n",
            self.output_of("columns", path, "L"),
        )

    def test_nothing_in_the_examples_looks_misspelled(self):
        for folder, label in (("first", "L"), ("solar", "HOME-1"), ("office", "OFFICE-1")):
            with self.subTest(folder):
                path = os.path.join(TOP, "examples", folder, "tariff.csv")
                self.assertEqual("columns: note: no column looks misspelled\n", self.run_tool("columns", path, label)[2])

    def test_a_label_that_is_not_there_or_there_twice_is_an_error(self):
        path = self.file("a.csv", "label,name\nA,x\n\nB,y\nA,z\n")
        self.assertEqual(f"columns: error: {path}: no record has the label a\n", self.error_of("columns", path, "a"))
        self.assertEqual(f"columns: error: {path} line 5: the label A stands twice, first in line 2\n", self.error_of("columns", path, "A"))

    def test_a_row_of_another_length_is_told(self):
        path = self.file("a.csv", "label,name\nA\n")
        self.assertIn("line 2: 1 cells, and the header has 2", self.run_tool("columns", path, "A")[2])

    def test_bad_files_end_with_one_line_that_names_them(self):
        for path in self.bad_inputs():
            with self.subTest(path):
                self.assertIn(path, self.error_of("columns", path, "L"))

    def test_help(self):
        self.assert_help("columns")

    @unittest.skipUnless(HAS_PROGRAM, "the program isn't built")
    def test_the_program_refuses_nonsense_exactly_in_columns_that_are_not_listed(self):
        readings = os.path.join(TOP, "examples", "first", "readings.csv")
        for name in (
            "energyratestructure/period35/tier0rate", "energyratestructure/period36/tier0rate", "energyratestructure/period01/tier0rate",
            "energyratestructure/period0/tier00rate", "energyratestructure/period0/tier0sel", "EnergyRateStructure/Period1/Tier0Sell",
            "demandratestructure/period0/tier0adj", "demandratestructure/period0/tier0unit", "demandratestructure/period0/tier0sell",
            "flatdemandstructure/period2/tier0rate", "flatdemandstructure/period2/tier0sell", "coincidentratestructure/period0/tier15adj",
            "coincidentratestructure/period0/tier16adj", "coincidentratestructure/period0/tier0max", "flatdemandmonths", "flatdemandmonth12",
            "flatdemandmonth13", "flatdemandmonth03", "demandratchetpercentage", "demandratchetpercentage1", "demandratchetpercentage0",
            "fueladjustmentsmonthly7", "dgrules", "demandwindow", "lookbackpercent", "lookbackrange", "MINCHARGE", "minmonthlycharge",
            "fixedchargeeaaddl", "annualmincharge", "demandreactivepowercharge", "energyweekendschedule", "demandrateunit", "flatdemandunit",
        ):
            with self.subTest(name):
                path = self.file("a.csv", f"label,energyratestructure/period0/tier0rate,{name}\nL,0.1,x\n")
                status = run_program("bill", "--records", path, "--label", "L", "--readings", readings)[0]
                self.assertEqual(0 if self.output_of("columns", path, "L") else 2, status)

    @unittest.skipUnless(HAS_PROGRAM, "the program isn't built")
    def test_the_program_ignores_the_same_columns(self):
        header = [
            "label", "utility", "energyratestructure/period0/tier0rate", "energyratestructure/period0/tier0sel", "mincharge", "MINCHARGE",
            "flatdemandmonths", "flatdemandmonth2", "demandratchetpercentage3", "energyratestructure/period36/tier0rate", "demandwindow",
            "energyratestructure/period01/tier0rate", "flatdemandmonth13", "demandratestructure/period0/tier0unit",
        ]
        cells = ["L", "u", "0.1", "0.1", "1", "2", '"[0,0,0,0,0,0,0,0,0,0,0,0]"', "0", "0.5", "1", "15", "0.1", "1", "kW"]
        path = self.file("a.csv", ",".join(header) + "\n" + ",".join(cells) + "\n")
        status, output = run_program("show", "--records", path, "--label", "L")
        if status == 1:
            self.skipTest("the program has no `show`")
        self.assertEqual(0, status, output)
        ignored = [line.split(" ", 1)[1] for line in output.splitlines() if line.startswith("ignored ")]
        listed = [line.split("\t")[0] for line in self.output_of("columns", path, "L").splitlines()]
        self.assertEqual(sorted(ignored), sorted(listed))


if __name__ == "__main__":
    unittest.main()
