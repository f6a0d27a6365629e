#!/usr/bin/env bash
# Replays a unit of 200 assertions on a waveform of 2,420 cycles, and has `vvp` of Icarus Verilog run the same modules
# over the same inputs: the time and the processor time of each, in five runs by turns, of which the least counts.
# Both must tell the same modules to fail first in the same cycles.
#   bench/replay.sh          builds the program from the proved crates
#   bench/replay.sh --try    runs it unproved and by an interpreter, to try the script: its time means nothing
# Wants iverilog, vvp and GNU `time`.
set -euo pipefail
top=$(cd "$(dirname "$0")/.." && pwd)
room=$(mktemp -d)
trap 'rm -rf "$room"' EXIT
count=200
cycles=2420

# Assertions over 32 signals of one bit and 8 vectors, of the forms of which checkers are made.
unit() {
    awk -v count=$count 'BEGIN {
        print "vunit u {"
        for (n = 0; n < 8; n++) print "  wire [15:0] v" n ";"
        for (n = 0; n < count; n++) {
            a = "s" n % 32; b = "s" (n * 7 + 3) % 32; c = "s" (n * 11 + 5) % 32; v = "v" n % 8; w = "v" (n + 3) % 8
            if (n % 4 == 0) print "  assert always (" a " && " b " -> " c " || " v " != " w ");"
            if (n % 4 == 1) print "  assert never (" a " && " b " && " c " && " v "[3:0] == 4'\''d" n % 16 ");"
            if (n % 4 == 2) print "  assert always (" v " + 1 > " w " || " a " || (always (" b " -> " c ")));"
            if (n % 4 == 3) print "  assert always (" a " -> (" b " -> " v "[" n % 16 "]) && " w " < 16'\''d60000);"
        }
        print "}" }'
}

# The waveform, and the same values as lines for the bench of Icarus Verilog.
waveform() {
    awk -v cycles=$cycles '
        function draw() { seed = (seed * 16807) % 2147483647; return seed }
        function bits(number, digits,   text) {
            for (text = ""; digits > 0; digits--) { text = number % 2 text; number = int(number / 2) }
            return text
        }
        BEGIN {
            seed = 1
            print "$timescale 1ns $end\n$scope module bench $end\n$var wire 1 ! clk $end" > "wave.vcd"
            for (i = 0; i < 40; i++) id[i] = sprintf("%c", 35 + i)
            for (i = 0; i < 32; i++) print "$var wire 1 " id[i] " s" i " $end" > "wave.vcd"
            for (i = 0; i < 8; i++) print "$var wire 16 " id[32 + i] " v" i " [15:0] $end" > "wave.vcd"
            print "$upscope $end\n$enddefinitions $end\n#0\n0!" > "wave.vcd"
            for (time = 0; time < cycles; time++) {
                line = ""
                for (i = 0; i < 32; i++) {
                    now = draw() % 8 == 0
                    if (time == 0 || now != bit[i]) print now id[i] > "wave.vcd"
                    bit[i] = now
                    line = now line
                }
                for (i = 0; i < 8; i++) {
                    if (time == 0 || draw() % 4 == 0) {
                        word[i] = bits(draw(), 16)
                        print "b" word[i] " " id[32 + i] > "wave.vcd"
                    }
                    line = word[i] line
                }
                print line > "inputs"
                print "#" 10 * time + 5 "\n1!\n#" 10 * time + 10 "\n0!" > "wave.vcd"
            }
        }'
}

# The bench of Icarus Verilog: each module over the inputs, and its first cycle of failing.
bench() {
    awk -v count=$count -v cycles=$cycles '
        /^module / { name = $2; sub(/\(.*/, "", name); names[++n] = name }
        / input / && !/mbac_/ {
            port = $NF; sub(/[,);]+$/, "", port)
            ports[n] = ports[n] ", ." port "(" port ")"
        }
        END {
            print "module bench;\n  reg mbac_clk = 0;\n  reg mbac_rst = 1;\n  reg [159:0] inputs [0:" cycles - 1 "];"
            print "  reg [159:0] row = 0;\n  integer n;\n  integer k;\n  wire [" count - 1 ":0] fails;"
            print "  integer first [0:" count - 1 "];"
            for (i = 0; i < 32; i++) print "  wire s" i " = row[" i "];"
            for (i = 0; i < 8; i++) print "  wire [15:0] v" i " = row[" 32 + 16 * i " +: 16];"
            for (k = 1; k <= n; k++)
                print "  " names[k] " checker" k " (.mbac_clk(mbac_clk), .mbac_rst(mbac_rst), .mbac_eot(1'\''b0)" \
                    ports[k] ", .mbac_fail(fails[" k - 1 "]));"
            print "  initial begin\n    $readmemb(\"inputs\", inputs);"
            print "    for (k = 0; k < " count "; k = k + 1) first[k] = -1;"
            print "    #1 mbac_clk = 1;\n    #1 mbac_clk = 0;\n    mbac_rst = 0;"
            print "    for (n = 0; n < " cycles "; n = n + 1) begin\n      row = inputs[n];\n      #1;"
            print "      if (fails)\n        for (k = 0; k < " count "; k = k + 1)"
            print "          if (fails[k] && first[k] < 0) first[k] = n;"
            print "      mbac_clk = 1;\n      #1 mbac_clk = 0;\n    end"
            print "    for (k = 0; k < " count "; k = k + 1)"
            print "      if (first[k] < 0) $display(\"none\"); else $display(\"%0d\", first[k]);\n  end\nendmodule"
        }' modules.v
}

make_program() {
    mkdir "$room/repository"
    tar -C "$top" --exclude=.git -cf - . | tar -C "$room/repository" -xf -
    cd "$room/repository"
    sed -n 's/^unit_compile:\(.*\)/replay_bench: anyhow vcd_replay vcd_reader verilog_cycles unit_compile\1/p' \
        crates.txt >> crates.txt
    local crate=crates/replay_bench
    mkdir -p $crate/src $crate/proofs
    cp bench/programs/replay.rt.txt $crate/src/main.rt
    cp bench/programs/modules.rt.txt $crate/src/modules.rt
    local name
    for name in Lawful Narrow Rows; do
        cp bench/programs/$name.antt.txt $crate/proofs/$name.antt
        echo "pub mod $name" >> $crate/proofs/Lib.antt
    done
    for name in traced verdict replay; do
        mkdir -p $crate/proofs/$name
        cp bench/programs/${name}_answers.antt.txt $crate/proofs/$name/Answers.antt
    done
    cp bench/programs/replay_invariants.antt.txt $crate/proofs/replay/Invariants.antt
    cd $crate
}

make_program
(cd "$room" && unit > unit.psl && waveform)
cp "$room/unit.psl" "$room/wave.vcd" .
if [[ ${1:-} == --try ]]; then
    rt try --data "unit.psl=$PWD/unit.psl" --data "wave.vcd=$PWD/wave.vcd"
    exit
fi
rt run > "$room/run.log" 2>&1 || true
program=$PWD/out/replay_bench
[[ -x $program ]] || { tail -40 "$room/run.log"; exit 1; }
cd "$room"
"$program" text > modules.v
bench > bench.v
iverilog -g2005 -o bench.vvp bench.v modules.v
for _ in 1 2 3 4 5; do
    /usr/bin/time -a -o ours -f '%e %U %S' "$program" > told
    /usr/bin/time -a -o theirs -f '%e %U %S' vvp -n bench.vvp > seen
done
cmp told seen
least() {
    awk 'NR == 1 || $1 < time { time = $1 } NR == 1 || $2 + $3 < own { own = $2 + $3 }
        END { printf "%.2f %.2f\n", time, own }' "$1"
}
echo "$(nproc) processors, load $(cut -d' ' -f1-3 /proc/loadavg); $(grep -vc none told) of $count modules fail"
read -r our_time our_own < <(least ours)
read -r their_time their_own < <(least theirs)
echo "this program: $our_time s, $our_own s of a processor"
echo "vvp: $their_time s, $their_own s of a processor"
awk -v a="$our_time" -v b="$their_time" -v c="$our_own" -v d="$their_own" \
    'BEGIN { printf "ratio: %.2f in time, %.2f in processor time\n", a / b, c / d }'
