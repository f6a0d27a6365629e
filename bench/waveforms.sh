#!/usr/bin/env bash
# Measures how long a waveform of 64 MB takes to be read and sampled, beside GTKWave's `vcd2fst` on the same file: five
# runs of each by turns, of which the best counts, and the most memory that each held.
# The program is proved, built and run in a temporary copy of the repository. It wants GTKWave and GNU `time`.
set -euo pipefail
top=$(cd "$(dirname "$0")/.." && pwd)
room=$(mktemp -d)
trap 'rm -rf "$room"' EXIT
cp -r "$top/." "$room/copy"
cd "$room/copy"
echo 'waveform_bench: psl_model vcd_reader vcd_replay' >> crates.txt
mkdir -p crates/waveform_bench/src
cat > crates/waveform_bench/src/main.rt <<'RATTLE'
//! Reads the waveform of a file, samples four of its signals, and tells how long each took in microseconds.
#![tactic(auto)]

ghost use Rattle.std.specs.Prelude.{◌≡◌, IfSome};
ghost use Rattle.vcd_reader.specs.Sound.{IsSound};

use psl_model::{Name, Signal};
use std::alloc::Global;
use std::fs;
use std::process::ExitCode;
use std::rt::Env;
use std::time::{Clock, Instant};
use vcd_reader::Vcd;
use vcd_replay::{Trace, sample};

fn file_name<R: Env + AllocGlobal>(rt: &R) -> Option<String> {
    match std::env::args(rt) {
        Ok(mut arguments) => arguments.nth(1),
        Err(_) => None,
    }
}

fn signal(alloc: Global, name: &[u8], width: u32) -> Option<Signal>
    ensures { IfSome result (λ signal. signal.width ≡ width) }
{
    match Name::new(alloc, name) {
        Ok(name) => Some(Signal { name, width }),
        Err(_) => None,
    }
}

fn sampled(alloc: Global, vcd: &Vcd) -> Option<Trace>
    requires { IsSound (record { vars = vcd.now.vars.items; changes = vcd.now.changes.items }) }
{
    let first = signal(alloc, b"s0", 1)?;
    let second = signal(alloc, b"s1", 1)?;
    let third = signal(alloc, b"v0", 16)?;
    let fourth = signal(alloc, b"v1", 16)?;
    let wanted = [first, second, third, fourth];
    match sample(alloc, vcd, b"bench", b"clk", &wanted, 0) {
        Ok(trace) => Some(trace),
        Err(_) => None,
    }
}

fn microseconds<R: Clock>(rt: &R, start: Instant) -> u128 {
    match start.elapsed(rt) {
        Ok(time) => time.as_micros(),
        Err(_) => 0,
    }
}

// The times of reading and of sampling, and the numbers of changes and cycles.
fn measure<R: Clock + AllocGlobal>(rt: &R, bytes: &[u8]) -> Option<(u128, u128, usize, u64)> {
    let Ok(start) = Instant::now(rt) else {
        return None;
    };
    let Ok(vcd) = Vcd::read(rt.alloc(), bytes) else {
        return None;
    };
    let reading = microseconds(rt, start);
    let Ok(start) = Instant::now(rt) else {
        return None;
    };
    match sampled(rt.alloc(), &vcd) {
        None => None,
        Some(trace) => Some((reading, microseconds(rt, start), vcd.changes.len(), trace.cycles())),
    }
}

fn main(rt: HostRuntime) -> ExitCode {
    let Some(name) = file_name(&rt) else {
        return ExitCode::from(2);
    };
    let Ok(bytes) = fs::read(&rt, name.as_str()) else {
        return ExitCode::from(3);
    };
    match measure(&rt, &bytes) {
        None => ExitCode::from(4),
        Some((reading, sampling, changes, cycles)) => {
            match println!(&rt; "{reading} {sampling} {changes} {cycles}") {
                Ok(()) => ExitCode::from(0),
                Err(_) => ExitCode::from(5),
            }
        }
    }
}
RATTLE
awk -v size=67108864 -f bench/waveform.awk > "$room/wave.vcd"
cd crates/waveform_bench
rt run -- "$room/wave.vcd" > /dev/null
cd "$room"
for _ in 1 2 3 4 5; do
    /usr/bin/time -a -o ours -f '%e %U %S %M' copy/crates/waveform_bench/out/waveform_bench wave.vcd >> parts
    /usr/bin/time -a -o theirs -f '%e %U %S %M' vcd2fst wave.vcd wave.fst > /dev/null
done
# The least time, and the least processor time, in seconds, and the most memory in MB.
least() {
    awk 'NR == 1 || $1 < time { time = $1 }
        NR == 1 || $2 + $3 < own { own = $2 + $3 }
        $4 > most { most = $4 }
        END { printf "%.2f %.2f %.0f\n", time, own, most / 1024 }' "$1"
}
echo "load: $(cut -d ' ' -f 1-3 /proc/loadavg)"
awk 'NR == 1 || $1 < reading { reading = $1 }
    NR == 1 || $2 < sampling { sampling = $2 }
    END { printf "%d changes, %d cycles: read in %.2f s, sampled in %.2f s\n",
        $3, $4, reading / 1000000, sampling / 1000000 }' parts
read -r our_time our_own our_most < <(least ours)
read -r their_time their_own their_most < <(least theirs)
echo "whole program: $our_time s, $our_own s of a processor, $our_most MB"
echo "vcd2fst: $their_time s, $their_own s of a processor, $their_most MB"
awk -v a="$our_time" -v b="$their_time" -v c="$our_own" -v d="$their_own" \
    'BEGIN { printf "ratio: %.2f in time, %.2f in processor time\n", a / b, c / d }'
