#!/bin/sh
# Times the built program on a month of 2976 readings: `bill` by a tariff in which all 36 energy periods and 37 groups occur, each with two
# tiers, and `plan` with two prices and a battery of 256 levels and 9 modes. It prints time and peak memory, and isn't part of the gate.
. "$(dirname -- "$0")/lib.sh"
built
cd "$work" || exit 1
python3 - <<'PY'
import csv, json

with open("readings.csv", "w") as file:
    file.write("start,net_wh\n")
    for quarter in range(2976):
        minute = quarter % 96 * 15
        file.write("2025-01-%02dT%02d:%02d,%d\n" % (quarter // 96 + 1, minute // 60, minute % 60, quarter * 7919 % 8000 - 1000))
with open("battery.csv", "w") as file:
    file.write("kind,name,change,grid_wh,low,high\nset,capacity,255,,,\nset,start,40,,,\n")
    for mode in range(9):
        file.write("mode,m%d,%d,%d,,\n" % (mode, mode - 4, (mode - 4) * 1000))

def record(name, cells):
    with open(name, "w", newline="") as file:
        csv.writer(file).writerows([[name for name, _ in cells], [value for _, value in cells]])

# weekdays are in periods 0 to 23, weekends in 12 to 35
weekday, weekend = (json.dumps([[first + hour for hour in range(24)]] * 12) for first in (0, 12))
cells = [("label", "L"), ("fixedchargefirstmeter", "0.50"), ("fixedchargeunits", "$/day"), ("mincharge", "5"), ("lookbackpercent", "0.5")]
for kind in ("energy", "demand"):
    cells += [(kind + "weekdayschedule", weekday), (kind + "weekendschedule", weekend)]
for period in range(36):
    for kind, end in (("energy", "20"), ("demand", "2")):
        front = "%sratestructure/period%d/" % (kind, period)
        cells += [(front + "tier0max", end), (front + "tier0rate", "0.1%02d" % period), (front + "tier1rate", "0.2%02d" % period)]
    cells += [("energyratestructure/period%d/tier0sell" % period, "0.0%02d" % period)]
cells += [("flatdemandstructure/period0/tier0max", "5"), ("flatdemandstructure/period0/tier0rate", "6"), ("flatdemandstructure/period0/tier1rate", "7")]
record("all.csv", cells)

afternoon = json.dumps([[int(16 <= hour < 20) for hour in range(24)]] * 12)
record("two.csv", [("label", "L"), ("energyratestructure/period0/tier0rate", "0.10"), ("energyratestructure/period1/tier0rate", "0.30"),
                   ("energyratestructure/period0/tier0sell", "0.04"), ("energyweekdayschedule", afternoon)])
PY
bill="$program bill --records all.csv --label L --readings readings.csv --prior-peak 20000"
plan="$program plan --records two.csv --label L --readings readings.csv --battery battery.csv"
# shellcheck disable=SC2086
lines=$($bill | grep -c -e '^period ' -e '^group ' -e '^flat ')
[ "$lines" -eq 73 ] || echo "the bill has $lines lines of periods and groups, wanted 73"
for run in "$bill" "$plan" "cp readings.csv copy.csv"; do
    echo "$run" | sed "s|$program|dispatch|"
    # shellcheck disable=SC2086
    best 20 1 $run
    # shellcheck disable=SC2086
    peak $run
done
