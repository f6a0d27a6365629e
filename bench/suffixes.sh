#!/usr/bin/env bash
# Compiles 200 suffix implications, and has GHDL synthesise the same ones, written in VHDL: the time of each in
# milliseconds, from start to end, in so many runs by turns, of which the least counts.
#   bench/suffixes.sh [RUNS]     times crates/mbac/out/mbac, which `rt run` in crates/mbac makes
# Wants ghdl.
set -euo pipefail
top=$(cd "$(dirname "$0")/.." && pwd)
runs=${1:-10}
program=$top/crates/mbac/out/mbac
[[ -x $program ]] || { echo "no program: run 'rt run -- compile ../../examples/bus.psl' in crates/mbac" >&2; exit 1; }
room=$(mktemp -d)
trap 'rm -rf "$room"' EXIT
cd "$room"

# The signals of each assertion, by their numbers.
signals() {
    awk 'BEGIN { for (n = 0; n < 200; n++) print n % 32, (n * 7 + 3) % 32, (n * 11 + 5) % 32, (n * 13 + 9) % 32 }'
}

unit() {
    echo 'vunit u {'
    signals | awk '{ printf "assert always ({s%d} |=> ({s%d;s%d} |-> s%d));\n", $1, $2, $3, $4 }'
    echo '}'
}

entity() {
    echo 'library ieee; use ieee.std_logic_1164.all;'
    echo 'entity checks is port (clk : in std_logic; s : in std_logic_vector(0 to 31)); end entity;'
    echo 'architecture psl of checks is begin'
    echo '  default clock is rising_edge(clk);'
    signals | awk '{ printf "  assert always ({s(%d)} |=> {s(%d); s(%d)} |-> s(%d));\n", $1, $2, $3, $4 }'
    echo 'end architecture;'
}

# The milliseconds that a command takes; what it writes goes to the file `written`.
timed() {
    local start=$EPOCHREALTIME
    "$@" > written 2> told
    awk -v from="$start" -v to="$EPOCHREALTIME" 'BEGIN { printf "%.1f\n", (to - from) * 1000 }'
}

unit > unit.psl
entity > checks.vhd
for ((run = 0; run < runs; run++)); do
    timed "$program" compile unit.psl >> ours
    stat -c %s written > our_size
    timed ghdl synth --std=08 checks.vhd -e checks >> theirs
    stat -c %s written > their_size
done
echo "$(nproc) processors, load $(cut -d' ' -f1-3 /proc/loadavg)"
echo "this program: $(sort -n ours | head -1) ms, $(cat our_size) bytes"
echo "ghdl --synth: $(sort -n theirs | head -1) ms, $(cat their_size) bytes"
awk -v a="$(sort -n ours | head -1)" -v b="$(sort -n theirs | head -1)" 'BEGIN { printf "ratio: %.2f\n", a / b }'
