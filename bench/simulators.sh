#!/usr/bin/env bash
# Runs one checker on the same inputs by the cycle machine, by Icarus Verilog and by Verilator, and prints what a node
# and cycle costs in each. The product compiles the unit and prints the checker. All three must give the same answers.
#   bench/simulators.sh          builds the program from the proved crates
#   bench/simulators.sh --try    runs it unproved and built with checks, to try the script: its time means nothing
# Wants iverilog, vvp, verilator and a C++ compiler.
set -euo pipefail
top=$(cd "$(dirname "$0")/.." && pwd)
parts=$top/bench/simulators
room=$(mktemp -d)
trap 'rm -rf "$room"' EXIT
cycles=500

# A unit of one assertion: 256 properties `always (cnt[i] -> cnt[j])`, each at two places of its own, joined by `&&`.
unit() {
    awk 'BEGIN {
        print "vunit u {\n  wire [63:0] cnt;"
        for (n = 0; n < 256; n++) {
            from = n % 64; to = (int(n / 64) + from + 1) % 64
            printf "  property p%d = always (cnt[%d] -> cnt[%d]);\n", n, from, to
            all = all (n ? " && " : "") "p" n
        }
        print "  assert " all ";\n}" }'
}

# A copy of the repository with a program that compiles the unit, prints its checker and runs it.
make_program() {
    mkdir "$room/repository"
    tar -C "$top" --exclude=.git -cf - . | tar -C "$room/repository" -xf -
    cd "$room/repository"
    local crate=crates/machine_bench
    mkdir -p $crate/src $crate/proofs/running/{run,measured}
    cp "$parts/main.rt.txt" $crate/src/main.rt
    cp "$parts/running.rt.txt" $crate/src/running.rt
    cp "$top/bench/programs/modules.rt.txt" $crate/src/modules.rt
    cp "$top/bench/programs/Lawful.antt.txt" $crate/proofs/Lawful.antt
    echo 'pub mod Lawful' > $crate/proofs/Lib.antt
    cp "$parts/run_invariants.antt.txt" $crate/proofs/running/run/Invariants.antt
    cp "$parts/measured_invariants.antt.txt" $crate/proofs/running/measured/Invariants.antt
    sed -n 's/^unit_compile:\(.*\)/machine_bench: anyhow verilog_cycles unit_compile\1/p' crates.txt >> crates.txt
    cd $crate
    unit > unit.psl
}

# The least of the lines '.. cycles NUMBER ns ANSWERS'.
least() { awk '{ print $3 }' "$1" | sort -n | head -1; }
answers() { awk '{ print $NF }' "$1" | sort -u; }

run_machine() {
    make_program
    if [[ ${1:-} == --try ]]; then
        sed -i 's/^const BATCHES: u32 = .*/const BATCHES: u32 = 2;/' src/running.rt
        rt try --data "unit.psl=$PWD/unit.psl" > "$room/told" 2> "$room/log" || { cat "$room/log"; exit 1; }
    else
        rt run > "$room/first" 2> "$room/log" || { tail -40 "$room/log"; exit 1; }
        out/machine_bench > "$room/told"
    fi
    cd "$room"
    grep ' cycles .* ns ' told > machine
    grep -v ' cycles .* ns ' told > checker.v
}

# The processor time of a run of so many cycles, in nanoseconds. Its answers are left in the file 'seen'.
icarus_time() {
    local TIMEFORMAT=%U
    { time vvp -n bench.vvp "+cycles=$1" > seen; } 2>&1 | awk '{ printf "%d\n", $1 * 1e9 }'
}

run_icarus() {
    iverilog -g2005 -o bench.vvp "$parts/bench.v" checker.v
    local start pass
    # What it takes to start isn't counted.
    start=$(for pass in {1..10}; do icarus_time 0; done | sort -n | head -1)
    for pass in {1..10}; do
        local taken=$(icarus_time $cycles)
        echo "$cycles cycles $((taken - start)) ns $(cat seen)"
    done > icarus
}

run_verilator() {
    verilator --cc --exe --build -O3 -CFLAGS -O3 --x-assign fast --x-initial fast -Wno-fatal \
        --top-module mbac_u_1 -Mdir verilated checker.v "$parts/bench.cpp" > verilator.log 2>&1 \
        || { tail -40 verilator.log; exit 1; }
    verilated/Vmbac_u_1 > verilator
}

run_machine "${1:-}"
run_icarus
run_verilator
nodes=$(grep -c '^  wire ' checker.v)
registers=$(grep -c '^  reg ' checker.v)
echo "$nodes nodes, $registers registers, $cycles cycles; $(nproc) processors, load $(cut -d' ' -f1-3 /proc/loadavg)"
machine=$(least machine)
for name in machine icarus verilator; do
    [[ $(answers $name) == "$(answers machine)" ]] || { echo "$name answers otherwise"; exit 1; }
    awk -v name=$name -v ns="$(least $name)" -v work=$((nodes * cycles)) -v machine="$machine" 'BEGIN {
        printf "%-10s %8.3f ns a node and cycle, %8.3f times the machine\n", name, ns / work, ns / machine }'
done
