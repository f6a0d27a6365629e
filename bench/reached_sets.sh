#!/usr/bin/env bash
# Measures how long the reached sets of a table of about 5,000 states take, and the automaton of first failure, in
# milliseconds. The program is proved and built in a temporary copy of the repository.
#   bench/reached_sets.sh          builds the program from the proved crates
#   bench/reached_sets.sh --try    runs it unproved and by an interpreter, on a small table, to try the script
# The table is the choice of 448 sequences `{[*]; a; [*8]; b}`, in seven kinds with a last symbol of their own. It has
# 513 reached sets, of which 256 have eight leaving symbols.
set -euo pipefail
top=$(cd "$(dirname "$0")/.." && pwd)
room=$(mktemp -d)
trap 'rm -rf "$room"' EXIT
tar -C "$top" --exclude=.git -cf - . | tar -C "$room" -xf -
cd "$room"
sed -n 's/^first_failure_examples:\(.*\)/sets_bench: anyhow\1/p' crates.txt >> crates.txt
crate=crates/sets_bench
mkdir -p $crate/src $crate/proofs
cp crates/first_failure_examples/src/tables.rt $crate/src
cp -r crates/first_failure_examples/proofs/tables $crate/proofs
find $crate -name '*.antt' -exec sed -i 's/first_failure_examples/sets_bench/g' {} +
sed -i '/^\/\/ The choice of as many first symbols/,/^}/d
    s/pub(crate) fn together/pub fn together/
    s/fn delayed(alloc: Global, letters: usize)/fn delayed(alloc: Global, letters: usize, symbol: usize)/
    s/let last = symbol_table(alloc, 1)?;/let last = symbol_table(alloc, symbol)?;/
    s/, 5000)/, 8192)/' $crate/src/tables.rt
cat > $crate/src/main.rt <<'RATTLE'
//! How long the reached sets of a large table take.
#![tactic(auto)]

mod tables;

use crate::tables::{delayed, either};
use anyhow::{Result, bail};
use auto_core::{Table, TableError, alive};
use first_failure::first_failure;
use std::alloc::Global;
use std::rt::Clock;
use std::time::Instant;
use weak_determinise::{Sets, determinise};

const KINDS: usize = 7;

const DOUBLINGS: u32 = 6;

const LETTERS: usize = 8;

const RUNS: u32 = 5;

// The choice of the kinds.
fn kinds(alloc: Global) -> Result<Table, TableError> {
    let mut table = delayed(alloc, LETTERS, 1)?;
    for kind in 1..KINDS {
        let next = delayed(alloc, LETTERS, kind + 1)?;
        table = either(alloc, &table, &next)?;
    }
    Ok(table)
}

fn large(alloc: Global) -> Result<Table, TableError> {
    let mut table = kinds(alloc)?;
    for _doubling in 0..DOUBLINGS {
        table = either(alloc, &table, &table)?;
    }
    Ok(table)
}

fn sets_of(alloc: Global, table: &Table) -> Option<Sets> {
    match alive(alloc, table) {
        Ok(marks) => determinise(alloc, table, &marks, 513, 8).ok(),
        Err(_) => None,
    }
}

// One run: how many nanoseconds the sets and the rows took, and how many there are.
fn measure<R: Clock + Print + AllocGlobal>(rt: &R, table: &Table) -> Result<()> {
    let start = Instant::now(rt)?;
    let Some(sets) = sets_of(rt.alloc(), table) else {
        bail!("no sets");
    };
    let all = start.elapsed(rt)?.as_nanos();
    let start = Instant::now(rt)?;
    let auto = first_failure(rt.alloc(), &sets)?;
    let rows = start.elapsed(rt)?.as_nanos();
    println!(rt; "{all} {rows} {} {}", table.states(), auto.rows.len())?;
    Ok(())
}

fn main(rt: HostRuntime) -> Result<()> {
    match large(rt.alloc()) {
        Ok(table) => {
            for _run in 0..RUNS {
                measure(&rt, &table)?;
            }
            Ok(())
        }
        Err(_) => bail!("no table"),
    }
}
RATTLE
cd $crate
if [[ ${1:-} == --try ]]; then
    sed -i 's/^const DOUBLINGS: u32 = .*/const DOUBLINGS: u32 = 1;/; s/^const RUNS: u32 = .*/const RUNS: u32 = 1;/' \
        src/main.rt
    rt try
    exit
fi
rt run > "$room/run.log" 2>&1 || true
[[ -x out/sets_bench ]] || { tail -40 "$room/run.log"; exit 1; }
echo "$(nproc) processors, load $(cut -d' ' -f1-3 /proc/loadavg)"
out/sets_bench | awk '
    NR == 1 || $1 < sets { sets = $1 }
    NR == 1 || $2 < rows { rows = $2 }
    END { printf "%d states, %d sets: sets in %.0f ms, rows in %.1f ms\n", $3, $4, sets / 1e6, rows / 1e6 }'
