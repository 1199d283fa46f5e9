#!/bin/bash
# Times the lanes of plane_kernel against plain loops over the words: on planes of 50 MB, and on planes of 3,141
# words, which is what 201,000 cells take. It builds a program in a temporary folder, with a copy of the crate as it
# stands in this checkout, and prints the processor time of each. No part of the gate.
set -e
top=$(cd "$(dirname "$0")/.." && pwd)
work=$(mktemp -d)
trap 'rm -rf "$work"' EXIT
mkdir -p "$work/crates/planes_bench/src"
cp -r "$top/crates/plane_kernel" "$work/crates/"
rm -rf "$work/crates/plane_kernel/out"
printf 'plane_kernel:\nplanes_bench: plane_kernel\n' > "$work/crates.txt"
cat > "$work/crates/planes_bench/src/main.rt" <<'END'
#![tactic(auto)]

ghost use Rattle.std.specs.Prelude.{◌≡◌, ◌^◌, ◌<◌, length};

use plane_kernel::{count, meets, within};
use std::io;
use std::time::{CpuClock, Duration};

const ROUNDS: u32 = 20;

#[inline(never)]
fn plain_meets(a: &[u64], b: &[u64]) -> bool
    requires { length a.now ≡ length b.now }
{
    for i in 0..a.len() {
        if a[i] & b[i] != 0 {
            return true;
        }
    }
    false
}

#[inline(never)]
fn plain_within(a: &[u64], b: &[u64]) -> bool
    requires { length a.now ≡ length b.now }
{
    for i in 0..a.len() {
        if a[i] & b[i] != a[i] {
            return false;
        }
    }
    true
}

#[inline(never)]
fn plain_count(a: &[u64]) -> u64 {
    let mut ones = 0u64;
    for word in a {
        ones = ones.wrapping_add(word.count_ones() as u64);
    }
    ones
}

fn millis_since<R: CpuClock>(rt: &R, start: Duration) -> io::Result<u128> {
    Ok(rt.thread_cpu_time()?.saturating_sub(start).as_millis())
}

fn time_meets<R: Print + CpuClock>(rt: &R, planes: &[Vec<u64>], row: &[u64]) -> io::Result<()> {
    let mut found = 0u64;
    let start = rt.thread_cpu_time()?;
    for _ in 0..ROUNDS {
        for plane in planes {
            if plane.len() == row.len() {
                found = found.wrapping_add(meets(plane, row) as u64);
            }
        }
    }
    let lanes = millis_since(rt, start)?;
    let start = rt.thread_cpu_time()?;
    for _ in 0..ROUNDS {
        for plane in planes {
            if plane.len() == row.len() {
                found = found.wrapping_add(plain_meets(plane, row) as u64);
            }
        }
    }
    let plain = millis_since(rt, start)?;
    println!(rt; "  meets: lanes {lanes} ms, plain {plain} ms, found {found}")
}

fn time_within<R: Print + CpuClock>(rt: &R, planes: &[Vec<u64>], row: &[u64]) -> io::Result<()> {
    let mut found = 0u64;
    let start = rt.thread_cpu_time()?;
    for _ in 0..ROUNDS {
        for plane in planes {
            if plane.len() == row.len() {
                found = found.wrapping_add(within(plane, row) as u64);
            }
        }
    }
    let lanes = millis_since(rt, start)?;
    let start = rt.thread_cpu_time()?;
    for _ in 0..ROUNDS {
        for plane in planes {
            if plane.len() == row.len() {
                found = found.wrapping_add(plain_within(plane, row) as u64);
            }
        }
    }
    let plain = millis_since(rt, start)?;
    println!(rt; "  within: lanes {lanes} ms, plain {plain} ms, found {found}")
}

fn time_count<R: Print + CpuClock>(rt: &R, planes: &[Vec<u64>]) -> io::Result<()> {
    let mut found = 0u64;
    let start = rt.thread_cpu_time()?;
    for _ in 0..ROUNDS {
        for plane in planes {
            if plane.len() < 1 << 58 {
                found = found.wrapping_add(count(plane));
            }
        }
    }
    let lanes = millis_since(rt, start)?;
    let start = rt.thread_cpu_time()?;
    for _ in 0..ROUNDS {
        for plane in planes {
            found = found.wrapping_add(plain_count(plane));
        }
    }
    let plain = millis_since(rt, start)?;
    println!(rt; "  count: lanes {lanes} ms, plain {plain} ms, found {found}")
}

fn time_planes<R: Print + CpuClock + AllocGlobal>(rt: &R, count: u32, words: usize) -> io::Result<()> {
    println!(rt; "{count} planes of {words} words, {ROUNDS} rounds")?;
    let mut planes = Vec::new(rt.alloc());
    for _ in 0..count {
        planes.push(vec![in rt.alloc(); 0x5555_5555_5555_5555u64; words]?)?;
    }
    let odd = vec![in rt.alloc(); 0xaaaa_aaaa_aaaa_aaaau64; words]?;
    let all = vec![in rt.alloc(); u64::MAX; words]?;
    time_meets(rt, &planes, &odd)?;
    time_within(rt, &planes, &all)?;
    time_count(rt, &planes)
}

fn main(rt: HostRuntime) -> io::Result<()> {
    time_planes(&rt, 1, 6_250_000)?;
    time_planes(&rt, 2_000, 3_141)
}
END
cd "$work/crates/planes_bench"
rt run 2> "$work/log" || { tail -n 40 "$work/log"; exit 1; }
