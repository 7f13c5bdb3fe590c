# What the benchmarks share: where the program is, a folder to work in, and the measuring of one command.
# It is read by `.` at the head of each of them.
top=$(cd "$(dirname "${BASH_SOURCE[0]}")/.." && pwd)
program="$top/crates/cgl/out/cgl"
work=$(mktemp -d) || exit 1
trap 'rm -rf "$work"' EXIT

# builds the program where it has to be, so that no build is measured
"$top/cgl" >/dev/null 2>"$work/told"
if [ ! -x "$program" ]; then
    cat "$work/told" >&2
    exit 1
fi

# Runs a command and prints its seconds and its peak memory in KB; `failed` where it ends with another status than 0.
# What it writes is in $work/output. Without /usr/bin/time there is no peak memory, and `-` stands for it.
measured() {
    local status from to
    if [ -x /usr/bin/time ]; then
        /usr/bin/time -f '%e %M' -o "$work/measure" "$@" >"$work/output" 2>&1
        status=$?
    else
        from=$(date +%s.%N)
        "$@" >"$work/output" 2>&1
        status=$?
        to=$(date +%s.%N)
        awk -v from="$from" -v to="$to" 'BEGIN { printf "%.2f -\n", to - from }' >"$work/measure"
    fi
    if [ "$status" -eq 0 ]; then
        tail -n 1 "$work/measure"
    else
        echo "failed -"
    fi
}

# seconds and peak memory in KB of the other readers of decks, each where it is installed
peers() {
    local told=
    if command -v glpsol >/dev/null 2>&1; then
        told="glpsol $(measured glpsol --check --freemps "$1")"
    fi
    if command -v clp >/dev/null 2>&1; then
        told="$told${told:+ }clp $(measured clp "$1" -stop)"
    fi
    echo "${told:-none installed}"
}
