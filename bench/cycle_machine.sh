#!/usr/bin/env bash
# Measures what a step of the cycle machine costs, in picoseconds a node and cycle: the best of 40 batches.
# The measurement is proved, built and run as a test in a temporary copy of the repository, and that test fails on
# purpose, since a failure shows its number.
set -euo pipefail
top=$(cd "$(dirname "$0")/.." && pwd)
room=$(mktemp -d)
trap 'rm -rf "$room"' EXIT
cp -r "$top/." "$room"
cd "$room/crates/verilog_cycles"
rm -rf must-fail
sed -i 's/^mod arithmetic;/mod arithmetic;\n#[cfg(test)]\nmod bench;/' src/lib.rt
mkdir -p proofs/bench/chain
cat > proofs/bench/chain/Invariants.antt <<'ANTT'
use Rattle.verilog_cycles.specs.inner.Nodes.{IsTape}
use Rattle.verilog_cycles.proofs.bench.chain.Given as goal

abbrev pub invariant-loop : goal.invariant-loop
invariant-loop l = IsTape l.nodes.items
ANTT
cat > src/bench.rt <<'RATTLE'
//! A measurement.

ghost use Rattle.std.specs.Prelude.{◌≡◌, ◌+◌, ◌<◌, ◌^◌, IfOk, length};
ghost use Rattle.verilog_cycles.specs.inner.Nodes.{IsTape};

use crate::nodes::{Node, evaluate};
use psl_model::{BinOp, UnOp};
use std::alloc::{AllocError, Global};
use std::test::Fail;
use std::time::Instant;

fn add(nodes: &mut Vec<Node>) -> Result<(), AllocError>
    requires { IsTape nodes.old.items }
    ensures tape { IfOk result (λ _. IsTape nodes.new.items) }
{
    let at = nodes.len();
    let node = if at < 2 {
        Node::Number(0)
    } else if at % 2 == 0 {
        Node::Unary(UnOp::Not, 1, at - 1)
    } else {
        Node::Binary(BinOp::And, 1, at - 1, at - 2)
    };
    nodes.push(node)?;
    Ok(())
}

fn chain(alloc: Global, count: usize) -> Result<Vec<Node>, AllocError>
    ensures { IfOk result (λ nodes. IsTape nodes.items) }
{
    let mut nodes = Vec::new(alloc);
    for _ in 0..count {
        add(&mut nodes)?;
    }
    Ok(nodes)
}

fn spin(nodes: &[Node], table: &mut [u64], cycles: usize)
    requires size { length table.old ≡ length nodes.now }
    requires tape { IsTape nodes.now }
{
    for _ in 0..cycles {
        evaluate(nodes, 2, table);
    }
}

#[test]
fn measure(rt: HostRuntime) -> Result<(), Fail> {
    let nodes = chain(rt.alloc(), 4002)?;
    let mut table: Vec<u64> = vec![in rt.alloc(); 0; nodes.len()]?;
    let mut best = u128::MAX;
    for _ in 0..40 {
        let start = Instant::now(&rt)?;
        spin(&nodes, &mut table, 500);
        best = best.min(start.elapsed(&rt)?.as_nanos());
    }
    let picoseconds = best / 2000;
    assert_eq!(rt; picoseconds, 0);
    Ok(())
}
RATTLE
rt test 2>&1 | sed -n 's/^ *left: \([0-9]*\)$/\1 ps a node and cycle/p'
