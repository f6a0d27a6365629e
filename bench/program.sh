#!/usr/bin/env bash
# Measures how long the program takes to compile a unit, in milliseconds: from its start to its end, with reading the
# unit from a file and writing the checkers to another one. The least of so many runs counts.
#   bench/program.sh [RUNS]      times crates/mbac/out/mbac, which `rt run` in crates/mbac makes
set -euo pipefail
top=$(cd "$(dirname "$0")/.." && pwd)
runs=${1:-10}
program=$top/crates/mbac/out/mbac
[[ -x $program ]] || { echo "no program: run 'rt run -- compile ../../examples/bus.psl' in crates/mbac" >&2; exit 1; }
room=$(mktemp -d)
trap 'rm -rf "$room"' EXIT
cd "$room"
limit=1048576

# 200 small assertions, over two signals each.
many() {
    awk 'BEGIN {
        print "vunit u {"
        for (n = 0; n < 200; n++) print "assert always (r" n " -> g" n ");"
        print "}" }'
}

# One assertion of 60,000 nodes: properties that double.
large() {
    awk 'BEGIN {
        print "vunit u {\nproperty p0 = a && b;"
        for (n = 1; n <= 13; n++) print "property p" n " = p" n - 1 " && p" n - 1 ";"
        print "assert always (p13 && p12 && p11 && p9 && p7 && p4 && p3);\n}" }'
}

# 256 assertions over 1,024 signals, four each.
wide() {
    awk 'BEGIN {
        print "vunit u {"
        for (n = 0; n < 1024; n += 4) print "assert always (s" n " && s" n + 1 " -> s" n + 2 " || s" n + 3 ");"
        print "}" }'
}

# As many properties as fit, one of them asserted.
declared() {
    awk -v size="$limit" 'BEGIN {
        text = "vunit u {\n"; last = "assert p1;\n}\n"; room = size - length(last)
        for (n = 1; used + length(text) <= room; n++) {
            printf "%s", text; used += length(text)
            text = "property p" n " = always (s" n % 1000 " && t -> (s" (n + 1) % 1000 " || !t));\n"
        }
        printf "%s", last }'
}

# As many comments as fit before one assertion.
comments() {
    awk -v size="$limit" 'BEGIN {
        last = "vunit u { assert always a; }\n"
        line = "// a line that says nothing but what a comment may say\n"
        for (used = length(last); used + length(line) <= size; used += length(line)) printf "%s", line
        printf "%s", last }'
}

# One assertion with as many registers as a checker may have: sixteen `next`, one in the other.
registers() {
    awk 'BEGIN {
        text = "vunit u { assert next[4095]("
        for (n = 1; n < 16; n++) text = text "next[4096]("
        text = text "b"
        for (n = 0; n < 16; n++) text = text ")"
        print text "; }" }'
}

# A sequence of 523,776 steps.
steps() {
    echo 'vunit u { assert {a[*0:1023]} |-> b; }'
}

# A sequence of 4,096 places.
places() {
    echo 'vunit u { assert {{a;b}[*1024]} |-> c; }'
}

# The least time of the runs.
measure() {
    local least= start end
    for ((n = 0; n < runs; n++)); do
        start=${EPOCHREALTIME/./}
        "$program" compile unit.psl > checkers.v
        end=${EPOCHREALTIME/./}
        if [[ -z $least ]] || ((end - start < least)); then least=$((end - start)); fi
    done
    awk -v name="$1" -v bytes="$(stat -c %s unit.psl)" -v written="$(stat -c %s checkers.v)" -v least="$least" \
        'BEGIN { printf "%-10s %8d bytes %10.1f ms, %9d bytes written\n", name, bytes, least / 1000, written }'
}

echo "$(nproc) processors, load $(cut -d' ' -f1-3 /proc/loadavg)"
for unit in many large wide declared comments registers steps places; do
    $unit > unit.psl
    measure $unit
done
