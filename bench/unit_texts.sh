#!/usr/bin/env bash
# Measures how long a unit's text takes to be read, in milliseconds: up to the raw tree, and up to the unit or the
# refusal. The least of ten runs counts. The program is proved and built in a temporary copy of the repository.
#   bench/unit_texts.sh          builds the program from the proved crates
#   bench/unit_texts.sh --try    runs it unproved and by an interpreter, on a short text, to try the script
set -euo pipefail
top=$(cd "$(dirname "$0")/.." && pwd)
room=$(mktemp -d)
trap 'rm -rf "$room"' EXIT
limit=1048576

# A unit of so many bytes at most: sequences and properties with bodies of their own, none used but one.
declarations() {
    awk -v size="$1" 'BEGIN {
        text = "vunit u {\n"; last = "assert p1;\n}\n"; room = size - length(last)
        for (n = 1; ; n++) {
            item = n % 2 ? "property p" n " = always (a -> next[3] (b || c[2]));\n" \
                         : "sequence s" n " = {a[*2];b[->];c[7:0] == 8'\''d255};\n"
            if (n == 1) item = "wire [7:0] c;\n" item
            if (used + length(text) + length(item) > room) break
            printf "%s", text; used += length(text); text = item
        }
        printf "%s%s", text, last }'
}

# As many sequences as fit, each just the name of the one before, and the last one asserted.
chain() {
    awk -v size="$1" 'BEGIN {
        text = "vunit u {\nsequence s0 = {a};\n"
        for (n = 1; ; n++) {
            item = "sequence s" n "={s" n - 1 "};\n"; last = "assert s" n ";}\n"
            if (used + length(text) + length(item) + length(last) > size) break
            printf "%s", text; used += length(text); text = item
        }
        printf "%sassert s%d;}\n", text, n - 1 }'
}

# A sequence of one signal that is doubled so often, and asserted.
doubled() {
    awk -v times="$1" 'BEGIN {
        print "vunit u { sequence s0 = {a};"
        for (n = 1; n <= times; n++) print "sequence s" n " = {s" n - 1 ";s" n - 1 "};"
        print "assert s" times "; }" }'
}

# A copy of the repository with the program.
tar -C "$top" --exclude=.git -cf - . | tar -C "$room" -xf -
cd "$room"
sed -n 's/^unit_texts:\(.*\)/unit_speed: unit_texts\1/p' crates.txt >> crates.txt
mkdir -p crates/unit_speed/src
cat > crates/unit_speed/src/main.rt <<'RATTLE'
//! How long the text in the file `unit.psl` takes to be read.
#![tactic(auto)]

ghost use Rattle.std.specs.Prelude.{◌≤◌, length};
ghost use Rattle.psl_model.specs.Limits.{unit_text_limit};

use psl_lexer::laws::tokens_stand_in_order;
use psl_lexer::tokens;
use psl_parser::parse_unit;
use std::alloc::Global;
use std::fs;
use std::io;
use std::rt::Clock;
use std::time::Instant;
use unit_texts::{TextError, read_text};

const RUNS: u32 = 10;

// The items of a text's tree.
fn parsed(alloc: Global, text: &[u8]) -> Option<usize>
    requires { length text.now ≤ unit_text_limit }
{
    tokens_stand_in_order();
    match tokens(alloc, text) {
        Ok(found) => match parse_unit(alloc, text, &found) {
            Ok(raw) => Some(raw.items.len()),
            Err(_) => None,
        },
        Err(_) => None,
    }
}

// The directives of a text's unit.
fn read(alloc: Global, text: &[u8]) -> Result<usize, TextError>
    requires { length text.now ≤ unit_text_limit }
{
    match read_text(alloc, text) {
        Ok(unit) => Ok(unit.directives.len()),
        Err(error) => Err(error),
    }
}

// One run: the nanoseconds up to the tree and up to the unit, and the answers.
fn measure<R: Clock + Print>(rt: &R, alloc: Global, text: &[u8]) -> io::Result<()>
    requires { length text.now ≤ unit_text_limit }
{
    let start = Instant::now(rt)?;
    let items = parsed(alloc, text);
    let tree = start.elapsed(rt)?.as_nanos();
    let start = Instant::now(rt)?;
    let answer = read(alloc, text);
    let unit = start.elapsed(rt)?.as_nanos();
    println!(rt; "{tree} {unit} {items:?} items, {answer:?}")
}

fn main(rt: HostRuntime) -> io::Result<()> {
    let text = fs::read(&rt, "unit.psl")?;
    if text.len() > 1_048_576 {
        return Ok(());
    }
    for _ in 0..RUNS {
        measure(&rt, rt.alloc(), &text)?;
    }
    Ok(())
}
RATTLE
cd crates/unit_speed
if [[ ${1:-} == --try ]]; then
    declarations 400 > unit.psl
    sed -i 's/^const RUNS: u32 = .*/const RUNS: u32 = 1;/' src/main.rt
    rt try --data "unit.psl=$PWD/unit.psl"
    exit
fi
echo 'vunit u { }' > "$room/unit.psl"
rt run > "$room/run.log" 2>&1 || true
program=$PWD/out/unit_speed
[[ -x $program ]] || { tail -40 "$room/run.log"; exit 1; }
cd "$room"

# The least times of a text.
report() {
    "$program" > told
    awk -v name="$1" -v bytes="$(stat -c %s unit.psl)" '
        NR == 1 || $1 < tree { tree = $1 }
        NR == 1 || $2 < unit { unit = $2 }
        { $1 = $2 = ""; answer = $0 }
        END {
            printf "%-14s %8d bytes %10.3f ms tree %10.3f ms unit %s\n", name, bytes, tree / 1e6, unit / 1e6, answer
        }
    ' told
}

echo "$(nproc) processors, load $(cut -d' ' -f1-3 /proc/loadavg)"
for size in 125000 250000 500000 1000000; do
    declarations $size > unit.psl
    report declarations
done
for size in 250000 500000 $limit; do
    chain $size > unit.psl
    report chain
done
for times in 16 63; do
    doubled $times > unit.psl
    report "doubled $times"
done
