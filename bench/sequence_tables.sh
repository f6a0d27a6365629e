#!/usr/bin/env bash
# Measures how long the tables of three large sequences take, in milliseconds, from the core sequence to the table. The
# program is proved and built in a temporary copy of the repository.
#   bench/sequence_tables.sh          builds the program from the proved crates
#   bench/sequence_tables.sh --try    runs it unproved and with checks, on small sequences, to try the script
# The sequences: `a[*0:1023]`, whose copies may each be left out; `{a;b}[*1024]`, which has as many places as a sequence
# may have; and the product of two repeated choices among 20 signals each, of which every pair of states is reached.
set -euo pipefail
top=$(cd "$(dirname "$0")/.." && pwd)
room=$(mktemp -d)
trap 'rm -rf "$room"' EXIT
tar -C "$top" --exclude=.git -cf - . | tar -C "$room" -xf -
cd "$room"
echo 'tables_bench: anyhow sequence_tables symbol_alphabet sequence_cores auto_core psl_rewrite psl_model' >> crates.txt
crate=crates/tables_bench
mkdir -p $crate/src
cat > $crate/src/main.rt <<'RATTLE'
//! How long the tables of large sequences take.
#![tactic(auto)]

use anyhow::{Result, bail};
use psl_model::{Expr, Sere, Subsere};
use psl_rewrite::Subcore;
use sequence_cores::{CoreError, core, places};
use sequence_tables::build;
use std::alloc::{AllocError, Global};
use std::ops::Range;
use std::rt::Clock;
use std::time::Instant;
use symbol_alphabet::Symbols;

const COPIES: u32 = 1024;

const LEFT: Range<usize> = 1..20;

const RIGHT: Range<usize> = 21..40;

const RUNS: u32 = 5;

fn signal(alloc: Global, number: usize) -> Result<Subsere, AllocError> {
    Subsere::new(alloc, Sere::Bool(Expr::Whole(number)))
}

// Up to 1,023 times a.
fn range(alloc: Global) -> Result<Subsere, AllocError> {
    let one = signal(alloc, 0)?;
    Subsere::new(alloc, Sere::Repeat(one, 0, Some(COPIES - 1)))
}

// a and then b, 1,024 times.
fn pairs(alloc: Global) -> Result<Subsere, AllocError> {
    let first = signal(alloc, 0)?;
    let second = signal(alloc, 1)?;
    let pair = Subsere::new(alloc, Sere::Then(first, second))?;
    Subsere::new(alloc, Sere::Repeat(pair, COPIES, Some(COPIES)))
}

// Any number of cycles, each with one of the signals.
fn choices(alloc: Global, first: usize, others: Range<usize>) -> Result<Subsere, AllocError> {
    let mut choice = signal(alloc, first)?;
    for number in others {
        let next = signal(alloc, number)?;
        choice = Subsere::new(alloc, Sere::Or(choice, next))?;
    }
    Subsere::new(alloc, Sere::Repeat(choice, 0, None))
}

fn product(alloc: Global) -> Result<Subsere, AllocError> {
    let left = choices(alloc, 0, LEFT)?;
    let right = choices(alloc, 20, RIGHT)?;
    Subsere::new(alloc, Sere::Both(left, right))
}

fn core_of(alloc: Global, sere: &Sere) -> Result<Subcore, CoreError> {
    Ok(Subcore::new(alloc, core(alloc, sere)?)?)
}

// How many nanoseconds the table took, and how large it is.
fn build_once<R: Clock + Print + AllocGlobal>(rt: &R, name: &str, core: &Subcore) -> Result<()> {
    let mut symbols = Symbols::new(rt.alloc());
    let start = Instant::now(rt)?;
    let table = build(rt.alloc(), core.get(), &mut symbols)?;
    let taken = start.elapsed(rt)?.as_nanos();
    println!(rt; "{name} {taken} {} {}", table.states(), table.edges().len())?;
    Ok(())
}

fn measure<R: Clock + Print + AllocGlobal>(rt: &R, name: &str, sere: &Sere) -> Result<()> {
    let Ok(core) = core_of(rt.alloc(), sere) else {
        bail!("no core sequence");
    };
    println!(rt; "{name} places {}", places(sere))?;
    for _run in 0..RUNS {
        build_once(rt, name, &core)?;
    }
    Ok(())
}

fn main(rt: HostRuntime) -> Result<()> {
    let sere = range(rt.alloc())?;
    measure(&rt, "range", sere.get())?;
    let sere = pairs(rt.alloc())?;
    measure(&rt, "pairs", sere.get())?;
    let sere = product(rt.alloc())?;
    measure(&rt, "product", sere.get())
}
RATTLE
cd $crate
if [[ ${1:-} == --try ]]; then
    sed -i 's/^const COPIES: u32 = .*/const COPIES: u32 = 16;/; s/^const RUNS: u32 = .*/const RUNS: u32 = 1;/
        s/= 1\.\.20;/= 1..3;/; s/= 21\.\.40;/= 21..23;/' src/main.rt
    rt try
    exit
fi
rt run > "$room/run.log" 2>&1 || true
[[ -x out/tables_bench ]] || { tail -40 "$room/run.log"; exit 1; }
echo "$(nproc) processors, load $(cut -d' ' -f1-3 /proc/loadavg)"
out/tables_bench | awk '
    $2 == "places" { places[$1] = $3; next }
    !($1 in least) || $2 < least[$1] { least[$1] = $2; states[$1] = $3; edges[$1] = $4 }
    END {
        split("range pairs product", names)
        for (n = 1; n <= 3; n++) {
            name = names[n]
            printf "%-8s %5d places %5d states %7d edges: %.1f ms\n", name, places[name], states[name], edges[name],
                least[name] / 1e6
        }
    }'
