#!/bin/sh
# Times one node, the bound of the box of all schedules, of a month of 744 intervals, 256 levels and 9 modes, and of one of 2976 intervals,
# 256 levels and 8 modes, beside a plain loop in C of the same additions and comparisons. A node goes through the month's arcs twice, once to the
# costs at day ends and once day by day to the schedule, so the loop does too. It also prints the peak memory of a run, and that of one
# without a bounder. It proves and builds a small program of its own in a folder that it removes, which takes some minutes. It isn't part of
# the gate.
. "$(dirname -- "$0")/lib.sh"
lend d_num d_list d_text d_table d_cal d_tier d_tariff d_box d_columns d_urdb d_meter d_batt d_bill d_rows d_path d_bound
build nodes bound d_batt d_bill d_bound d_box d_meter d_num d_table d_tariff d_urdb
cd "$work" || exit 1
cc -O2 -o plain -x c "$top/bench/bound/plain.c.txt" || exit 1
for size in "60 9" "15 8"; do
    # shellcheck disable=SC2086
    set -- $size
    python3 - "$@" <<'PY'
import sys
minutes, modes = int(sys.argv[1]), int(sys.argv[2])
with open("tariff.csv", "w") as file:
    file.write("label,energyratestructure/period0/tier0rate,flatdemandstructure/period0/tier0rate\nL,0.10,10\n")
with open("readings.csv", "w") as file:
    file.write("start,net_wh\n")
    for place in range(31 * 1440 // minutes):
        minute = place * minutes % 1440
        file.write("2025-01-%02dT%02d:%02d,%d\n" % (place * minutes // 1440 + 1, minute // 60, minute % 60, 2000 + place * 7919 % 8000))
with open("battery.csv", "w") as file:
    file.write("kind,name,change,grid_wh,low,high\nset,capacity,255,,,\nset,start,40,,,\n")
    for mode in range(modes):
        change = mode - modes // 2
        file.write("mode,m%d,%d,%d,,\n" % (mode, change, change * 250))
PY
    python3 "$top/bench/bound/measure.py" "$program" ./plain "$((31 * 1440 / $1))" 256 "$2"
    peak "$program" once
    echo "  without a bounder:"
    peak "$program"
done
