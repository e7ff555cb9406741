#!/usr/bin/env bash
# Builds a small program over the crate plain_data and measures the maps in it, beside the kit's BTreeMap.
# README.md, beside this file, says how to read what it prints.
set -euo pipefail

top=$(cd "$(dirname "$0")/.." && pwd)
work=$(mktemp -d)
trap 'rm -rf "$work"' EXIT

mkdir -p "$work/crates/plain_data" "$work/crates/measure_maps"
cp -r "$top/crates/plain_data/src" "$top/crates/plain_data/specs" "$top/crates/plain_data/proofs" "$work/crates/plain_data/"
mkdir -p "$work/crates/measure_maps/src" "$work/crates/measure_maps/specs" "$work/crates/measure_maps/proofs"
: >"$work/crates/measure_maps/specs/Lib.antt"
: >"$work/crates/measure_maps/proofs/Lib.antt"
grep '^plain_data' "$top/crates.txt" >"$work/crates.txt"
echo 'measure_maps: plain_data' >>"$work/crates.txt"

cat >"$work/crates/measure_maps/src/main.rt" <<'RATTLE'
//! Measures one use of a map: `measure_maps USE ENTRIES`.
#![tactic(auto)]

use plain_data::{Map, Text};
use std::alloc::Global;
use std::collections::BTreeMap;
use std::env;
use std::process::ExitCode;
use std::test::Fail;
use std::time::Instant;

/// The number behind `state` in a sequence that looks like chance and is the same each time.
fn scattered(state: u64) -> u64 {
    state.wrapping_mul(6364136223846793005).wrapping_add(1442695040888963407)
}

fn key_of(alloc: Global, number: u64) -> Result<Text, Fail> {
    let spread = scattered(number) >> 20;
    Ok(Text::from_string(format!(in alloc; "index-{spread}")?))
}

/// Sets the entries one by one, and keeps a copy after each.
fn kept(alloc: Global, entries: u64) -> Result<u64, Fail> {
    let mut copies = Vec::new(alloc);
    let mut map = Map::new(alloc);
    for number in 0..entries {
        map.set(key_of(alloc, number)?, number)?;
        copies.push(map.copy()?)?;
    }
    Ok(copies.len() as u64)
}

/// The same with a `BTreeMap`, copied whole.
fn kept_plain(alloc: Global, entries: u64) -> Result<u64, Fail> {
    let mut copies = Vec::new(alloc);
    let mut map = BTreeMap::new(alloc);
    for number in 0..entries {
        map.insert(key_of(alloc, number)?, number)?;
        copies.push(map.clone()?)?;
    }
    Ok(copies.len() as u64)
}

fn filled(alloc: Global, entries: u64) -> Result<Map<u64>, Fail> {
    let mut map = Map::new(alloc);
    for number in 0..entries {
        map.set(key_of(alloc, number)?, number)?;
    }
    Ok(map)
}

/// 500 times ten changes and thirty copies.
fn handed_on(alloc: Global, mut map: Map<u64>, entries: u64) -> Result<u64, Fail> {
    let mut copies = Vec::new(alloc);
    let mut state = 1u64;
    for round in 0..500u64 {
        for _ in 0..10u64 {
            state = scattered(state);
            if entries > 0 {
                map.set(key_of(alloc, (state >> 33) % entries)?, round)?;
            }
        }
        copies.clear();
        for _ in 0..30u64 {
            copies.push(map.copy()?)?;
        }
    }
    Ok(copies.len() as u64)
}

fn walk(map: &Map<u64>) -> u64 {
    let mut sum = 0u64;
    for (key, value) in map.iter() {
        sum = sum.wrapping_add(*value).wrapping_add(key.len() as u64);
    }
    sum
}

fn walk_plain(map: &BTreeMap<Text, u64>) -> u64 {
    let mut sum = 0u64;
    for (key, value) in map.iter() {
        sum = sum.wrapping_add(*value).wrapping_add(key.len() as u64);
    }
    sum
}

/// 100 whole walks.
fn walks(map: &Map<u64>) -> u64 {
    let mut sum = 0u64;
    for _ in 0..100u64 {
        sum = sum.wrapping_add(walk(map));
    }
    sum
}

fn walks_plain(map: &BTreeMap<Text, u64>) -> u64 {
    let mut sum = 0u64;
    for _ in 0..100u64 {
        sum = sum.wrapping_add(walk_plain(map));
    }
    sum
}

/// Sets the entries and looks each up, with no copy kept.
fn alone(alloc: Global, entries: u64) -> Result<u64, Fail> {
    let map = filled(alloc, entries)?;
    let mut sum = 0u64;
    for number in 0..entries {
        if let Some(value) = map.get(&key_of(alloc, number)?) {
            sum = sum.wrapping_add(*value);
        }
    }
    Ok(sum)
}

fn filled_plain(alloc: Global, entries: u64) -> Result<BTreeMap<Text, u64>, Fail> {
    let mut map = BTreeMap::new(alloc);
    for number in 0..entries {
        map.insert(key_of(alloc, number)?, number)?;
    }
    Ok(map)
}

fn alone_plain(alloc: Global, entries: u64) -> Result<u64, Fail> {
    let map = filled_plain(alloc, entries)?;
    let mut sum = 0u64;
    for number in 0..entries {
        if let Some(value) = map.get(&key_of(alloc, number)?) {
            sum = sum.wrapping_add(*value);
        }
    }
    Ok(sum)
}

fn main(rt: HostRuntime) -> Result<ExitCode, Fail> {
    let alloc = rt.alloc();
    let mut args = env::args(&rt)?;
    let _program = args.next();
    let name = args.next().unwrap_or(String::new(alloc));
    let entries = match args.next() {
        None => 0u64,
        Some(text) => text.as_str().parse::<u64>().unwrap_or(0),
    };
    let (shared, plain) = match name.as_str() {
        "handed_on" | "walks" => (filled(alloc, entries)?, BTreeMap::new(alloc)),
        "walks_plain" => (Map::new(alloc), filled_plain(alloc, entries)?),
        _ => (Map::new(alloc), BTreeMap::new(alloc)),
    };
    let start = Instant::now(&rt)?;
    let answer = match name.as_str() {
        "kept" => kept(alloc, entries)?,
        "kept_plain" => kept_plain(alloc, entries)?,
        "handed_on" => handed_on(alloc, shared, entries)?,
        "walks" => walks(&shared),
        "walks_plain" => walks_plain(&plain),
        "alone" => alone(alloc, entries)?,
        "alone_plain" => alone_plain(alloc, entries)?,
        _ => return Ok(ExitCode::FAILURE),
    };
    let spent = start.elapsed(&rt)?.as_micros();
    println!(rt; "{spent} {answer}")?;
    Ok(ExitCode::SUCCESS)
}
RATTLE

(cd "$work/crates/measure_maps" && rt fmt >/dev/null && rt run -- kept 10 >"$work/log" 2>&1) || { cat "$work/log"; exit 1; }
program=$work/crates/measure_maps/out/measure_maps

# measure USE ENTRIES: the best time of five, in milliseconds, and the peak memory of the last run, in megabytes
measure() {
    local best='' micros peak=''
    for _ in 1 2 3 4 5; do
        micros=$(/usr/bin/time -f %M -o "$work/peak" "$program" "$1" "$2" | cut -d' ' -f1)
        peak=$(cat "$work/peak")
        if [ -z "$best" ] || [ "$micros" -lt "$best" ]; then best=$micros; fi
    done
    awk -v use="$1" -v n="$2" -v t="$best" -v m="$peak" 'BEGIN { printf "%-12s %7d entries  %9.1f ms  %7.1f MB\n", use, n, t / 1000, m / 1024 }'
}

for entries in 1000 2000 4000; do
    measure kept "$entries"
    measure kept_plain "$entries"
done
measure handed_on 4000
measure walks 4000
measure walks_plain 4000
measure alone 100000
measure alone_plain 100000
