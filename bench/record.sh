#!/bin/sh
# Times the reading of a record with 350, 700, 1400 and 2800 columns under the rate database's own header names (periods 0 to 35, tiers 0
# to 15, written by the naming rule), 2000 times each, and beside it a plain look at each column's name and cell as often. It proves and
# builds a small program of its own in a folder that it removes. It isn't part of the gate.
. "$(dirname -- "$0")/lib.sh"
lend d_num d_list d_text d_table d_tier d_cal d_tariff d_columns d_urdb
build turns record d_table d_urdb d_tariff
cd "$work" || exit 1
for columns in 350 700 1400 2800; do
    python3 - "$columns" <<'PY'
import sys
count = int(sys.argv[1])
grid = "[%s]" % ",".join("[%s]" % ",".join(str((month + hour) % 36) for hour in range(24)) for month in range(12))
cells = [("label", "L"), ("utility", "Power Company"), ("name", "General Service"), ("dgrules", "Net Billing Instantaneous"),
         ("energyweekdayschedule", '"%s"' % grid), ("energyweekendschedule", '"%s"' % grid)]
for tier in range(16):
    for period in range(36):
        for part in ("max", "unit", "rate", "adj", "sell"):
            said = {"max": str((tier + 1) * 100), "unit": "kWh", "rate": "0.%d" % (10 + (tier + period) % 80), "adj": "0.0012345", "sell": "0.03"}[part]
            cells.append(("energyratestructure/period%d/tier%d%s" % (period, tier, part), said))
with open("record.csv", "w") as file:
    file.write(",".join(name for name, _ in cells[:count]) + "\n" + ",".join(cell for _, cell in cells[:count]) + "\n")
PY
    echo "$columns columns, each turn: a look at each column"
    best 5 2000 "$program"
    echo "$columns columns, each turn: read_record"
    best 5 2000 "$program" record
done
