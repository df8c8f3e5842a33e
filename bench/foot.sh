#!/bin/bash
# Counts the instructions that a touch of a cell costs, by callgrind on a proved program over sy_foot, and its peak memory.
# The counts are differences of runs with one and with two rounds, so what is made once isn't in them.
# Usage: bench/foot.sh [CELLS ..]   (1024 131072 1048576 if left out). Needs rt, valgrind and /usr/bin/time.
set -eu
cd "$(dirname "${BASH_SOURCE[0]}")/.."
[ $# -gt 0 ] || set -- 1024 131072 1048576
work=$(mktemp -d)
trap 'rm -rf "$work"' EXIT
mkdir -p "$work/crates/touches/src"
cp -r crates/sy_access crates/sy_foot "$work/crates/"
printf 'sy_access: thiserror\nsy_foot: sy_access\ntouches: sy_access sy_foot\n' >"$work/crates.txt"
cat >"$work/crates/touches/src/main.rt" <<'RT'
// Notes touches in a loop: the words are what is done, the number of cells and of rounds.
#![tactic(auto)]

use std::alloc::Global;
use std::io;
use sy_foot::{AbsorbStop, EarlierGroups, Footprint, TouchStop};

/// Adds two cells into a third.
fn add(f: &mut Footprint, cell: u32, apart: u32) -> Result<(), TouchStop> {
    let x = f.read(cell, 5)?;
    let y = f.read(cell.wrapping_add(apart), 6)?;
    f.write(cell.wrapping_add(apart).wrapping_add(apart), x.wrapping_add(y))?;
    Ok(())
}

/// Groups of 64 items, each with three cells of its own.
fn run_sums(f: &mut Footprint, groups: &mut EarlierGroups, items: u32) -> u64 {
    let mut good = 0u64;
    for g in 0..items / 64 {
        f.clear();
        for k in 0..64u32 {
            if add(f, g.wrapping_mul(64).wrapping_add(k), items).is_ok() && f.next_item().is_ok() {
                good = good.wrapping_add(1);
            }
        }
        if groups.absorb(f).is_err() {
            return good;
        }
    }
    good
}

/// Copies a cell that the phase before wrote.
fn pass(f: &mut Footprint, from: u32, to: u32) -> Result<(), TouchStop> {
    let x = f.read(from, 5)?;
    f.write(to, x)
}

/// A group of 1,024 items over four phases: each item reads what its neighbour wrote and writes a cell of its own.
fn run_phases(f: &mut Footprint, groups: &mut EarlierGroups) -> u64 {
    let mut good = 0u64;
    f.clear();
    for p in 0..4u32 {
        let to = (p % 2).wrapping_mul(1024);
        let from = 1024u32.wrapping_sub(to);
        for k in 0..1024u32 {
            if pass(f, from.wrapping_add(k.wrapping_add(1) % 1024), to.wrapping_add(k)).is_ok()
                && f.next_item().is_ok()
            {
                good = good.wrapping_add(1);
            }
        }
        if f.next_phase().is_err() {
            return good;
        }
    }
    match groups.absorb(f) {
        Ok(()) => good,
        Err(AbsorbStop::Clash) => 0,
        Err(AbsorbStop::Memory) => 0,
    }
}

fn run(alloc: Global, what: u32, cells: u32, rounds: u32) -> io::Result<u64> {
    let mut f = Footprint::new(alloc, cells as usize)?;
    let mut good = 0u64;
    for _ in 0..rounds {
        let mut groups = EarlierGroups::new(alloc, cells as usize)?;
        let more = if what == 0 {
            run_sums(&mut f, &mut groups, cells / 4)
        } else {
            run_phases(&mut f, &mut groups)
        };
        good = good.wrapping_add(more);
    }
    Ok(good)
}

fn number(text: &str) -> u32 {
    text.parse::<u32>().unwrap_or(0)
}

fn main(rt: HostRuntime) -> io::Result<()> {
    let mut words = [0u32; 4];
    let mut i = 0usize;
    for word in std::env::args(&rt)? {
        if i < 4 {
            words[i] = number(word.as_str());
            i = i.wrapping_add(1);
        }
    }
    let good = run(rt.alloc(), words[1], words[2], words[3])?;
    println!(rt; "{good}")
}
RT
(cd "$work/crates/touches" && rt run -- 0 256 1) >"$work/log" 2>&1 || { tail -n 20 "$work/log"; exit 1; }
program=$(find "$work/crates/touches/out" -type f -perm -u+x -name 'touches*' | head -n 1)

count() {
    valgrind --tool=callgrind --callgrind-out-file="$work/out" "$program" "$@" 2>&1 >/dev/null |
        sed -n 's/.*Collected : \([0-9]*\).*/\1/p'
}

tell() {
    awk -v name="$1" -v one="$2" -v two="$3" -v touches="$4" 'BEGIN {
        printf "%s: %.1f instructions a touch\n", name, (two - one) / touches
    }'
}

for cells in "$@"; do
    tell "$cells cells" "$(count 0 "$cells" 1)" "$(count 0 "$cells" 2)" $((cells / 4 * 3))
    peak=$(/usr/bin/time -f %M "$program" 0 "$cells" 1 2>&1 >/dev/null | tail -n 1)
    echo "$cells cells: peak $peak KiB"
done
tell "1,024 items over four phases" "$(count 1 2048 1)" "$(count 1 2048 2)" 8192
