#!/bin/sh
# Times the built program on the first example, on an office's month, where demand is charged, and on two months with a battery of 256
# levels: 744 readings with 9 modes, and 2976 readings with 8 modes and three groups of demand, at three budgets. It prints time, peak memory and the
# number of boxes. It isn't part of the gate.
. "$(dirname -- "$0")/lib.sh"
built
cp "$top"/examples/first/*.csv "$work"
for file in tariff readings battery; do cp "$top/examples/office/$file.csv" "$work/office-$file.csv"; done
cd "$work" || exit 1
python3 - <<'PY'
with open("demand.csv", "w") as file:
    grid = "[%s]" % ",".join("[%s]" % ",".join(str(int(12 <= hour < 18)) for hour in range(24)) for month in range(12))
    file.write("label,energyratestructure/period0/tier0rate,flatdemandstructure/period0/tier0rate,demandratestructure/period0/tier0rate,"
               "demandratestructure/period1/tier0rate,demandweekdayschedule,demandweekendschedule\nL,0.10,10,5,9,\"%s\",\"%s\"\n" % (grid, grid))
with open("hours.csv", "w") as file:
    file.write("start,net_wh\n")
    for hour in range(744):
        file.write("2025-01-%02dT%02d:00,%d\n" % (hour // 24 + 1, hour % 24, 2000 + hour * 7919 % 8000))
with open("quarters.csv", "w") as file:
    file.write("start,net_wh\n")
    for quarter in range(2976):
        minute = quarter % 96 * 15
        file.write("2025-01-%02dT%02d:%02d,%d\n" % (quarter // 96 + 1, minute // 60, minute % 60, 2000 + quarter * 7919 % 8000))
for modes in 9, 8:
    with open("modes-%d.csv" % modes, "w") as file:
        file.write("kind,name,change,grid_wh,low,high\nset,capacity,255,,,\nset,start,40,,,\n")
        for mode in range(modes):
            change = mode - modes // 2
            file.write("mode,m%d,%d,%d,,\n" % (mode, change, change * 250))
PY

# measure RUNS COMMAND ...: the best time of so many runs, the peak memory, the verdict and the boxes
measure() {
    runs=$1
    shift
    echo "$*" | sed "s|$program|dispatch|"
    best "$runs" 1 "$@"
    peak "$@"
    "$@" | sed -n 's/^verdict/  verdict/p; s/^boxes/  boxes/p'
}

# plan TARIFF LABEL READINGS BATTERY [WORD ...]: measures a plan
plan() {
    runs=20
    [ "$3" = quarters.csv ] && runs=5
    tariff=$1 label=$2 readings=$3 battery=$4
    shift 4
    measure "$runs" "$program" plan --records "$tariff" --label "$label" --readings "$readings" --battery "$battery" "$@"
}

plan tariff.csv L readings.csv battery.csv
plan office-tariff.csv OFFICE-1 office-readings.csv office-battery.csv
plan tariff.csv L hours.csv modes-9.csv
for budget in 1 11 43; do plan demand.csv L quarters.csv modes-8.csv --budget "$budget"; done
measure 20 cp readings.csv copy.csv
