# What the benches share; each of them sources it. It sets `top`, the repository, and `work`, a folder that is removed at the end.
top=$(CDPATH='' cd -- "$(dirname -- "$0")/.." && pwd) || exit 1
work=$(mktemp -d) || exit 1
trap 'rm -rf "$work"' EXIT

# lend CRATE ...: copies crates of the repository into the folder, with their lines of crates.txt
lend() {
    for name in "$@"; do
        mkdir -p "$work/crates"
        cp -r "$top/crates/$name" "$work/crates/$name" && rm -rf "$work/crates/$name/out" "$work/crates/$name/must-fail"
        grep "^$name:" "$top/crates.txt" >>"$work/crates.txt"
    done
}

# build NAME FOLDER CRATE ...: proves and builds the program of bench/FOLDER over these crates, with the invariants and answers of its
# functions, and names it in `program`
build() {
    crate=$work/crates/$1
    folder=$2
    mkdir -p "$crate/src"
    cp "$top/bench/$folder/main.rt.txt" "$crate/src/main.rt"
    for file in "$top/bench/$folder"/*.antt.txt; do
        [ -f "$file" ] || continue
        name=$(basename "$file" .antt.txt)
        mkdir -p "$crate/proofs/${name%.*}" && cp "$file" "$crate/proofs/${name%.*}/${name##*.}.antt"
    done
    line="$1:"
    shift 2
    echo "$line $*" >>"$work/crates.txt"
    (cd "$crate" && rt run </dev/null) >"$work/build.log" 2>&1
    program=$crate/out/${line%:}
    [ -x "$program" ] || { cat "$work/build.log" >&2; exit 1; }
}

# built: names the dispatcher as it was built last in `program`
built() {
    program=$top/crates/dispatch/out/dispatch
    [ -x "$program" ] || { echo "build the program first: ./dispatch plan" >&2; exit 1; }
}

# best RUNS TURNS COMMAND ...: the best time of so many runs, divided by the turns that one run makes, and what the last run printed
best() {
    python3 - "$@" <<'PY'
import subprocess, sys, time
runs, turns, command = int(sys.argv[1]), int(sys.argv[2]), sys.argv[3:]
took = []
for _ in range(runs):
    begin = time.perf_counter()
    done = subprocess.run(command, stdout=subprocess.PIPE, check=False)
    took.append((time.perf_counter() - begin) / turns)
said = done.stdout.decode("utf-8", "replace").strip().split("\n")[0][:60]
print("  best of %d: %.4f ms, status %d (%s)" % (runs, min(took) * 1000, done.returncode, said))
PY
}

# peak COMMAND ...: the peak memory of a run, measured from a small parent, since a child's peak counts what it held before it became the
# program
peak() {
    if [ -x /usr/bin/time ]; then /usr/bin/time -f '  peak memory: %M KB' "$@" 2>&1 >/dev/null | tail -n 1; fi
}
