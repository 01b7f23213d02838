"""Tests of tools/record."""

import csv
import json
import os
import sys
import unittest

sys.path.insert(0, os.path.dirname(os.path.abspath(__file__)))
from tool_runner import HAS_PROGRAM, TOP, ToolTest, run_program


class Record(ToolTest):
    def rows(self, text):
        """The rows that a JSON text becomes, as a csv reader reads them."""
        output = self.output_of("record", self.file("a.json", text))
        return list(csv.DictReader(output.splitlines()))

    def test_tiers_become_the_columns_of_the_bulk_file(self):
        row = self.rows('{"label":"L","energyratestructure":[[{"max":5,"unit":"kWh","rate":0.1},{"rate":0.2,"sell":0.05}],[{"adj":-0.01}]]}')[0]
        self.assertEqual(
            {
                "label": "L",
                "energyratestructure/period0/tier0max": "5",
                "energyratestructure/period0/tier0unit": "kWh",
                "energyratestructure/period0/tier0rate": "0.1",
                "energyratestructure/period0/tier1rate": "0.2",
                "energyratestructure/period0/tier1sell": "0.05",
                "energyratestructure/period1/tier0adj": "-0.01",
            },
            row,
        )

    def test_numbers_keep_their_text(self):
        for text in ("0.10000000000000001", "1e-05", "1E+2", "-0.50", "12345678901234567890123456789", "0.000"):
            with self.subTest(text):
                row = self.rows(f'{{"label":"L","mincharge":{text},"demandratestructure":[[{{"rate":{text}}}]],"lookbackmonths":[{text}]}}')[0]
                self.assertEqual([text, text, f"[{text}]"], [row["mincharge"], row["demandratestructure/period0/tier0rate"], row["lookbackmonths"]])

    def test_schedules_and_lists_stand_in_brackets_in_one_cell(self):
        row = self.rows('{"label":"L","energyweekdayschedule":[[0,1],[2,3]],"flatdemandmonths":[0,1]}')[0]
        self.assertEqual(("[[0, 1], [2, 3]]", "[0, 1]"), (row["energyweekdayschedule"], row["flatdemandmonths"]))

    def test_a_list_with_months_that_have_nothing_stands_in_twelve_columns(self):
        row = self.rows('{"label":"L","demandratchetpercentage":[null,0.5,0,0,0,0,0,0,0,0,0,0.9]}')[0]
        self.assertNotIn("demandratchetpercentage", row)
        self.assertEqual(("", "0.5", "0.9"), tuple(row[f"demandratchetpercentage{month}"] for month in (1, 2, 12)))

    def test_nulls_absent_fields_and_empty_lists_are_empty(self):
        rows = self.rows(
            '{"items":[{"label":"A","enddate":null,"fueladjustmentsmonthly":[]},'
            '{"label":"B","name":"n","energyratestructure":[[{"rate":null}],[],null]}]}'
        )
        self.assertEqual(("", "", ""), (rows[0]["enddate"], rows[0]["fueladjustmentsmonthly"], rows[0]["name"]))
        self.assertEqual(("", "n", ""), (rows[1]["enddate"], rows[1]["name"], rows[1]["energyratestructure/period0/tier0rate"]))

    def test_columns_are_those_of_all_records_with_tiers_in_order(self):
        text = (
            '[{"name":"n","label":"A","energyratestructure":[[{"rate":1}],[],[],[],[],[],[],[],[],[],[{"rate":1}]]},'
            '{"label":"B","energyratestructure":[[{"max":1},{"rate":2}],[],[{"rate":3}]]}]'
        )
        tiers = ["period0/tier0max", "period0/tier0rate", "period0/tier1rate", "period2/tier0rate", "period10/tier0rate"]
        header = self.output_of("record", self.file("a.json", text)).splitlines()[0]
        self.assertEqual(["label", "name", *(f"energyratestructure/{tier}" for tier in tiers)], header.split(","))

    def test_one_record_a_list_and_items_are_the_same(self):
        one = '{"label":"A","mincharge":5}'
        outputs = {self.output_of("record", self.file("a.json", text)) for text in (one, f"[{one}]", f'{{"items":[{one}]}}')}
        self.assertEqual({"label,mincharge\nA,5\n"}, outputs)

    def test_names_are_written_in_small_letters(self):
        self.assertEqual("label,mincharge\nA,5\n", self.output_of("record", self.file("a.json", '{"Label":"A","minCharge":5}')))

    def test_commas_quotes_breaks_and_objects_are_one_cell(self):
        text = '{"label":"A","name":"a, \\"b\\"","description":"x\\r\\ny\\rz","energyattrs":[{"k":"v"},{"n":1.50,"t":true}]}'
        path = self.file("a.csv", self.output_of("record", self.file("a.json", text)))
        with open(path, encoding="utf-8", newline="") as file:
            row = list(csv.DictReader(file))[0]
        self.assertEqual('a, "b"', row["name"])
        self.assertEqual("x\r\ny\rz", row["description"])
        self.assertEqual('[{"k": "v"}, {"n": 1.50, "t": true}]', row["energyattrs"])

    def test_fields_that_would_be_read_under_another_name_are_told(self):
        notes = self.run_tool("record", self.file("a.json", '{"label":"A","fixedmonthlycharge":5,"utility":"u"}'))[2]
        self.assertEqual("record: note: nothing is read from fixedmonthlycharge of A: nearest fixedchargefirstmeter\n", notes)

    def test_standard_input_is_read_and_a_byte_order_mark_taken_off(self):
        self.assertEqual("label\nA\n", self.output_of("record", "-", given=b'\xef\xbb\xbf{"label":"A"}'))

    def test_the_output_file_is_written_whole_or_left_as_it_was(self):
        path = self.file("a.csv", "old")
        self.error_of("record", self.file("bad.json", '[{"label":"A"},{"name":"n"}]'), "-o", path)
        with open(path, encoding="utf-8") as file:
            self.assertEqual("old", file.read())
        self.assertEqual("", self.output_of("record", self.file("good.json", '{"label":"A"}'), "-o", path))
        with open(path, encoding="utf-8") as file:
            self.assertEqual("label\nA\n", file.read())
        self.assertEqual(["a.csv", "bad.json", "good.json"], sorted(os.listdir(self.folder)))

    def test_an_output_that_cannot_be_written_is_an_error(self):
        good = self.file("good.json", '{"label":"A"}')
        self.error_of("record", good, "-o", self.folder)
        self.error_of("record", good, "-o", os.path.join(self.folder, "none", "a.csv"))
        self.assertEqual(["good.json"], os.listdir(self.folder))

    def test_bad_json_is_told_with_its_line(self):
        self.assertIn("a.json line 3: this isn't JSON", self.error_of("record", self.file("a.json", '{"label":"A",\n\n"name":}')))

    def test_what_is_no_record_is_told_with_its_number(self):
        for text, reason in (
            ("[]", "there is no record in it"),
            ('{"items":[]}', "there is no record in it"),
            ("5", "there is no record in it"),
            ("[5]", "record 1: this is no object"),
            ('[{"label":"A"},{"name":"n"}]', "record 2: it has no label"),
            ('{"label":"A","energyratestructure":[0.1]}', "record 1 (A): energyratestructure: period 0 isn't a list of tiers"),
            ('{"label":"A","energyratestructure":[[0.1]]}', "tier 0 of period 0 has no fields"),
            ('{"label":"A","label":"B"}', "the field label stands twice"),
            ('{"label":"A","Label":"B"}', "two fields are for the column label"),
            ('{"label":"A","mincharge":NaN}', "NaN is no number"),
            ('{"label":"\\ud800"}', "half a character"),
            ("[" * 100000, "too deep"),
            ('{"label":"A","source":' + "[" * 50 + "]" * 50 + "}", "too deep"),
            ('{"error":{"code":"API_KEY_INVALID"}}', "answered with an error"),
        ):
            with self.subTest(text[:60]):
                self.assertIn(reason, self.error_of("record", self.file("a.json", text)))

    def test_bad_files_end_with_one_line_that_names_them(self):
        for path in self.bad_inputs():
            with self.subTest(path):
                self.assertIn(path, self.error_of("record", path))

    def test_help(self):
        self.assert_help("record")

    @unittest.skipUnless(HAS_PROGRAM, "the program isn't built")
    def test_a_record_made_from_json_has_the_bill_of_its_row(self):
        folder = os.path.join(TOP, "examples", "office")
        rows = os.path.join(folder, "tariff.csv")
        made = os.path.join(self.folder, "made.csv")
        self.output_of("record", self.file("a.json", web_form(rows)), "-o", made)
        readings = os.path.join(folder, "readings.csv")
        bills = [run_program("bill", "--records", path, "--label", "OFFICE-1", "--readings", readings) for path in (rows, made)]
        self.assertEqual(0, bills[0][0])
        self.assertIn("bill 982.7272\n", bills[0][1])
        self.assertEqual(bills[0], bills[1])


def web_form(path):
    """The first record of a file in the web form."""
    with open(path, encoding="utf-8", newline="") as file:
        row = next(csv.DictReader(file))
    fields = {}
    for name, cell in row.items():
        if cell == "":
            continue
        value = cell if cell.startswith("[") or cell.replace(".", "", 1).isdigit() else json.dumps(cell)
        structure, *places = name.split("/")
        if not places:
            fields[name] = value
            continue
        period, (tier, part) = int(places[0][6:]), (int(places[1][4]), places[1][5:])
        fields.setdefault(structure, {}).setdefault(period, {}).setdefault(tier, {})[part] = value
    return "{" + ", ".join(f'"{name}": {value if isinstance(value, str) else periods_text(value)}' for name, value in fields.items()) + "}"


def periods_text(periods):
    """A structure's periods as JSON, with an empty list for one without tiers."""
    return "[" + ", ".join(tiers_text(periods.get(period, {})) for period in range(max(periods) + 1)) + "]"


def tiers_text(tiers):
    """A period's tiers as JSON."""
    return "[" + ", ".join("{" + ", ".join(f'"{part}": {value}' for part, value in tiers[tier].items()) + "}" for tier in sorted(tiers)) + "]"


if __name__ == "__main__":
    unittest.main()
