#!/usr/bin/env bash
# Measures how long checker texts take to be read back, in milliseconds. The least of ten runs counts. The program is
# proved and built in a temporary copy of the repository.
#   bench/checker_texts.sh          builds the program from the proved crates
#   bench/checker_texts.sh --try    runs it unproved and by an interpreter, on a short text, to try the script
set -euo pipefail
top=$(cd "$(dirname "$0")/.." && pwd)
room=$(mktemp -d)
trap 'rm -rf "$room"' EXIT

# A text of so many modules, each with a register and so many wires a bit wide.
checkers() {
    awk -v modules="$1" -v wires="$2" 'BEGIN {
        for (m = 0; m < modules; m++) {
            print "module mbac_bench_" m " (mbac_clk, mbac_rst, mbac_eot, req, ack, data, mbac_fail);"
            print "  // module " m
            print "  input mbac_clk;\n  input mbac_rst;\n  input mbac_eot;"
            print "  input req;\n  input ack;\n  input [15:0] data;\n  output mbac_fail;"
            for (r = 0; r < wires / 4; r++) print "  reg mbac_r" r ";"
            print "  wire mbac_n0 = (|(data[7:0] == 8'\''d17));\n  wire mbac_n1 = (req && (!ack));"
            for (w = 2; w < wires; w++) {
                if (w % 2) text = "(mbac_n" w - 1 " || mbac_r" int(w / 4) ")"
                else text = "(mbac_n" int(w / 2) " && (!mbac_n" w - 1 "))"
                print "  wire mbac_n" w " = " text ";"
            }
            print "  assign mbac_fail = mbac_n" wires - 1 ";"
            for (r = 0; r < wires / 4; r++)
                print "  always @(posedge mbac_clk) mbac_r" r " <= (mbac_rst ? 1'\''d" r % 2 " : mbac_n" 4 * r ");"
            print "endmodule"
        }
    }'
}

# A copy of the repository with the program.
tar -C "$top" --exclude=.git -cf - . | tar -C "$room" -xf -
cd "$room"
sed -n 's/^verilog_reader:\(.*\)/checker_speed: verilog_reader\1/p' crates.txt >> crates.txt
mkdir -p crates/checker_speed/src
cat > crates/checker_speed/src/main.rt <<'RATTLE'
//! How long the text in the file `checkers.v` takes to be read, with what it takes to free the modules.
#![tactic(auto)]

use std::alloc::Global;
use std::fs;
use std::io;
use std::rt::Clock;
use std::time::Instant;
use verilog_reader::{TextError, read_modules};

const RUNS: u32 = 10;

// The count of a text's modules.
fn read(alloc: Global, text: &[u8]) -> Result<usize, TextError> {
    match read_modules(alloc, text) {
        Ok(modules) => Ok(modules.len()),
        Err(error) => Err(error),
    }
}

// One run: its nanoseconds and its answer.
fn measure<R: Clock + Print>(rt: &R, alloc: Global, text: &[u8]) -> io::Result<()> {
    let start = Instant::now(rt)?;
    let answer = read(alloc, text);
    let time = start.elapsed(rt)?.as_nanos();
    println!(rt; "{time} {answer:?}")
}

fn main(rt: HostRuntime) -> io::Result<()> {
    let text = fs::read(&rt, "checkers.v")?;
    for _ in 0..RUNS {
        measure(&rt, rt.alloc(), &text)?;
    }
    Ok(())
}
RATTLE
cd crates/checker_speed
if [[ ${1:-} == --try ]]; then
    checkers 3 40 > checkers.v
    sed -i 's/^const RUNS: u32 = .*/const RUNS: u32 = 1;/' src/main.rt
    rt try --data "checkers.v=$PWD/checkers.v"
    exit
fi
checkers 1 8 > "$room/checkers.v"
rt run > "$room/run.log" 2>&1 || true
program=$PWD/out/checker_speed
[[ -x $program ]] || { tail -40 "$room/run.log"; exit 1; }
cd "$room"

# The least time of a text.
report() {
    "$program" > told
    awk -v bytes="$(stat -c %s checkers.v)" '
        NR == 1 || $1 < time { time = $1 }
        { $1 = ""; answer = $0 }
        END { printf "%9d bytes %10.1f ms %s\n", bytes, time / 1e6, answer }
    ' told
}

echo "$(nproc) processors, load $(cut -d' ' -f1-3 /proc/loadavg)"
checkers 1000 248 > checkers.v
report
checkers 1 216000 > checkers.v
report
checkers 20 4 > checkers.v
report
