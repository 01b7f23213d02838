#!/bin/sh
# Plans or bills ten thousand records that were changed at random: bytes flipped, cells swapped, columns doubled. Each has to end in a plan
# or a bill, in a refusal of the record by its number and name, or in that no schedule is feasible: statuses 0, 2 and 5, and a bill only in the
# first two and never in `NotYet`. It needs the built program and isn't part of the gate. COUNT and SEED may be given as words.
. "$(dirname -- "$0")/lib.sh"
built
python3 - "$top" "$work" "${1:-10000}" "${2:-1}" <<'PY'
import collections, csv, io, random, re, subprocess, sys
top, work, count, seed = sys.argv[1], sys.argv[2], int(sys.argv[3]), int(sys.argv[4])
chance = random.Random(seed)
NAMES = ("NoLabel LabelTwice NoColumn Decimal Grid EnergyMissing TierHole TierOrder TierUnit SellTiers DemandFalls DemandUnit NetMetering "
         "BuyAllSellAll HourlyRule Coincident Reactive AnnualMinimum FuelAdjustment ChargeUnit RuleUnknown Fraction NotYet").split()
LINE = re.compile(rb"refused record (0 (TooLong|Shape \d+)|\d+ (%s) [ -~]* \d+( [ -~]*)?)\n" % "|".join(NAMES).encode())

def table(path):
    with open(path, newline="") as file:
        return list(csv.reader(file))

def plain():
    return [["label", "dgrules", "energyratestructure/period0/tier0max", "energyratestructure/period0/tier0unit", "energyratestructure/period0/tier0rate",
             "energyratestructure/period0/tier0adj", "energyratestructure/period0/tier0sell", "demandrateunit", "demandratestructure/period0/tier0rate",
             "demandratestructure/period0/tier0adj", "flatdemandunit", "flatdemandstructure/period0/tier0rate", "flatdemandmonth1",
             "demandratchetpercentage", "demandratchetpercentage1", "lookbackpercent", "fixedchargefirstmeter", "fixedchargeunits", "mincharge",
             "minchargeunits", "annualmincharge", "coincidentratestructure/period0/tier0rate", "demandreactivepowercharge", "fueladjustmentsmonthly1"],
            ["L", "", "", "kWh", "0.10", "0.01", "", "kW", "0", "0", "kW", "", "3", "", "0.5", "50", "0", "$/day", "0", "", "", "0", "0", "0"]]

def swap(rows):
    row = chance.choice(rows)
    first, second = chance.randrange(len(row)), chance.randrange(len(row))
    row[first], row[second] = row[second], row[first]

def double(rows):
    column, place = chance.randrange(len(rows[0])), chance.randrange(len(rows[0]) + 1)
    for row in rows:
        row.insert(place, row[column])

def refill(rows):
    rows[1][chance.randrange(len(rows[1]))] = chance.choice(
        ["", "0", "-1", "1e3", "0.1x", "1e+38", "101", "$/year", "$/Month", "kWh", "[0,1", "[[0]]", "-0.5", "Net Metering", "\u00e9", " ", "9" * 400])

def flip(text):
    data = bytearray(text)
    for _ in range(chance.randrange(1, 4)):
        data[chance.randrange(len(data))] ^= 1 << chance.randrange(8)
    return bytes(data)

sources = [(plain(), "L"), (plain(), "L"), (table(top + "/examples/first/tariff.csv"), "L"), (table(top + "/examples/office/tariff.csv"), "OFFICE-1")]
seen = collections.Counter()
names = collections.Counter()
for turn in range(count):
    rows, label = chance.choice(sources)
    rows = [list(row) for row in rows]
    for _ in range(chance.randrange(0, 4)):
        chance.choice([swap, double, refill, refill])(rows)
    out = io.StringIO()
    csv.writer(out, lineterminator="\n").writerows(rows)
    text = out.getvalue().encode()
    if chance.random() < 0.4:
        text = flip(text)
    with open(work + "/tariff.csv", "wb") as file:
        file.write(text)
    first = top + "/examples/first/"
    command = chance.choice(["plan", "bill"])
    last = ["--battery", first + "battery.csv"] if command == "plan" else ["--prior-peak", "5000"]
    done = subprocess.run([top + "/crates/dispatch/out/dispatch", command, "--records", work + "/tariff.csv", "--label", label, "--readings",
                           first + "readings.csv"] + last, stdout=subprocess.PIPE, stderr=subprocess.PIPE, check=False)
    seen[command, done.returncode] += 1
    sound = done.returncode == 0 and done.stdout.startswith(b"dispatch %s\n" % command.encode())
    sound = sound or done.returncode == 5 and command == "plan" or done.returncode == 2 and LINE.fullmatch(done.stdout)
    sound = sound and not (command == "bill" and b" 23 NotYet " in done.stdout)
    if not sound or done.stderr:
        print("turn %d of seed %d: status %d %r %r" % (turn, seed, done.returncode, done.stdout[:200], done.stderr[:200]))
        open("mutated.csv", "wb").write(text)
        sys.exit(1)
    if done.returncode == 2:
        names[done.stdout.split()[3].decode() if done.stdout.split()[2] != b"0" else "0"] += 1
print("statuses", {"%s %d" % end: times for end, times in sorted(seen.items())})
print("refusals", dict(names.most_common()))
PY
