#!/usr/bin/env python3
"""Measures the ends of sessions: feeding them, and making images.

    bench/sessions/measure.py [--scratch DIR] [--megabytes M] [--rounds R]

A program is made of the text below, as a crate of a scratch copy of this repository, since a program
that only measures has no place in the gate. `rt run` proves and builds it there; the repository is
left as it is.
"""
import argparse
import os
import resource
import shutil
import statistics
import subprocess
import sys
import tempfile

CRATE = "bench_sessions"
LINE = CRATE + ": pitch_fields pitch_messages unit_packets session_ends gap_store grp_session spin_server\n"

# A heartbeat, and a block of one message whose type no end reads: 38 bytes. Pieces whose lengths are
# no multiple of that begin and end inside blocks.
PROGRAM = r'''//! Feeds ends of sessions, and makes images, for a benchmark.
#![tactic(auto)]

ghost use Rattle.std.specs.Prelude.{◌≤◌};

use gap_store::GapStore;
use grp_session::{GapBudget, GrpServer};
use pitch_messages::{Raw, RawList};
use spin_server::{ImageLookup, ImageShelf, SpinServer};
use std::alloc::Global;
use std::env;
use std::process::ExitCode;
use unit_packets::{BlockReader, DatagramList, view_block};

const PATTERN: [u8; 38] = [
    8, 0, 0, 1, 0, 0, 0, 0, 30, 0, 1, 1, 0, 0, 0, 0, 22, 0x99, 0, 0, 0, 0, 0, 0, 0, 0, 0, 0, 0, 0,
    0, 0, 0, 0, 0, 0, 0, 0,
];

// The pattern so many times.
fn stream(alloc: Global, times: usize) -> Option<Vec<u8>> {
    let mut bytes = Vec::new(alloc);
    for _ in 0..times {
        bytes.extend_from_slice(&PATTERN).ok()?;
    }
    Some(bytes)
}

// Passes the whole blocks of the rest, and counts their messages.
fn pass_blocks(reader: &mut BlockReader) -> u64 {
    let mut messages: u64 = 0;
    for _ in 0..u64::MAX {
        let (size, count) = match view_block(reader.rest()) {
            Ok(block) => (block.header().length as usize, block.header().count),
            Err(_) => break,
        };
        if size > reader.rest().len() {
            break;
        }
        reader.pass(size);
        messages = messages.saturating_add(count as u64);
    }
    messages
}

fn read_plainly(alloc: Global, bytes: &[u8], piece: usize, rounds: u64) -> Option<u64>
    requires { 1 ≤ piece }
{
    let mut reader = BlockReader::make(alloc);
    let mut messages: u64 = 0;
    for _ in 0..rounds {
        for part in bytes.chunks(piece) {
            reader.load(part).ok()?;
            messages = messages.saturating_add(pass_blocks(&mut reader));
        }
    }
    Some(messages)
}

fn feed_proxy(alloc: Global, bytes: &[u8], piece: usize, rounds: u64) -> Option<u64>
    requires { 1 ≤ piece }
{
    let mut server = GrpServer::make(alloc, 1, Vec::new(alloc), false);
    let mut budget = GapBudget::make(10, 100, 1000);
    let mut store = GapStore::make(alloc, 1).ok()?;
    let mut reply = Vec::new(alloc);
    let mut lines = DatagramList::make(alloc);
    for _ in 0..rounds {
        for part in bytes.chunks(piece) {
            server
                .feed(part, &mut budget, Some(&mut store), &mut reply, &mut lines)
                .ok()?;
        }
    }
    if server.closed().is_some() {
        return None;
    }
    Some(reply.len() as u64)
}

fn feed_spin(alloc: Global, bytes: &[u8], piece: usize, rounds: u64) -> Option<u64>
    requires { 1 ≤ piece }
{
    let mut server = SpinServer::make(alloc, 1, Vec::new(alloc), false);
    let mut shelf = ImageShelf::make(alloc);
    let mut reply = Vec::new(alloc);
    for _ in 0..rounds {
        for part in bytes.chunks(piece) {
            server.feed(part, &mut shelf, &mut reply).ok()?;
        }
    }
    if server.closed().is_some() {
        return None;
    }
    Some(reply.len() as u64)
}

// Makes an image of so many orders, whose ids fall, so many times.
fn make_images(alloc: Global, orders: u32, rounds: u64) -> Option<u64> {
    let mut shelf = ImageShelf::make(alloc);
    for i in 0..orders {
        let id = (orders - i) as u64;
        let [a, b, c, d, e, f, g, h] = id.to_le_bytes();
        let raw = Raw::from_bytes(&[
            26, 0x22, 0, 0, 0, 0, a, b, c, d, e, f, g, h, b'B', 100, 0, b'S', b'P', b'Y', b' ',
            b' ', b' ', 1, 0, 1,
        ])?;
        if shelf.pushed() >= 4294967294 {
            return None;
        }
        shelf.push(&raw).ok()?;
    }
    let sequence = shelf.advertise().ok()?;
    let mut messages: u64 = 0;
    for _ in 0..rounds {
        let mut image = RawList::make(alloc);
        shelf.image(sequence, &mut image).ok()?;
        messages = messages.saturating_add(image.len() as u64);
    }
    Some(messages)
}

fn run(rt: &HostRuntime) -> Option<u64> {
    let words: Vec<String> = env::args(rt).ok()?.skip(1).collect(rt.alloc()).ok()?;
    let what = words.get(0)?;
    let size: u32 = words.get(1)?.as_str().parse::<u32>().ok()?;
    let rounds: u64 = words.get(2)?.as_str().parse::<u64>().ok()?;
    if size == 0 {
        return None;
    }
    if what.as_str() == "image" {
        return make_images(rt.alloc(), size, rounds);
    }
    let piece = size as usize;
    let bytes = stream(rt.alloc(), piece)?;
    match what.as_str() {
        "read" => read_plainly(rt.alloc(), &bytes, piece, rounds),
        "proxy" => feed_proxy(rt.alloc(), &bytes, piece, rounds),
        "spin" => feed_spin(rt.alloc(), &bytes, piece, rounds),
        _ => None,
    }
}

fn main(rt: HostRuntime) -> ExitCode {
    match run(&rt) {
        Some(_) => ExitCode::from(0),
        None => ExitCode::from(1),
    }
}
'''


def build(top, scratch):
    """Makes the scratch copy with the program in it, builds it, and gives the program's path."""
    shutil.copytree(os.path.join(top, "crates"), os.path.join(scratch, "crates"), dirs_exist_ok=True,
                    ignore=shutil.ignore_patterns("out", "must-fail"))
    shutil.copy(os.path.join(top, "HANDLES"), scratch)
    with open(os.path.join(top, "crates.txt")) as listed:
        lines = listed.read()
    with open(os.path.join(scratch, "crates.txt"), "w") as listed:
        listed.write(lines + LINE)
    folder = os.path.join(scratch, "crates", CRATE)
    os.makedirs(os.path.join(folder, "src"), exist_ok=True)
    with open(os.path.join(folder, "src", "main.rt"), "w") as main:
        main.write(PROGRAM)
    log = os.path.join(scratch, "build.log")
    with open(log, "w") as out:
        # It ends with status 1, since it is run without words; what counts is that it was built.
        subprocess.run(["rt", "run"], cwd=folder, stdout=out, stderr=out, check=False)
    program = os.path.join(folder, "out", CRATE)
    if not os.path.exists(program):
        sys.exit("the program was not built: see " + log)
    return program


def cost(program, words):
    """The processor time of a run, in seconds."""
    before = resource.getrusage(resource.RUSAGE_CHILDREN)
    subprocess.run([program, *words], check=True)
    after = resource.getrusage(resource.RUSAGE_CHILDREN)
    return after.ru_utime - before.ru_utime + after.ru_stime - before.ru_stime


def memory(program, words):
    """The most memory that a run takes, in megabytes."""
    told = subprocess.run([sys.executable, "-c",
                           "import resource, subprocess, sys\n"
                           "subprocess.run(sys.argv[1:], check=True)\n"
                           "print(resource.getrusage(resource.RUSAGE_CHILDREN).ru_maxrss)",
                           program, *words], check=True, stdout=subprocess.PIPE, text=True)
    return int(told.stdout) / 1024


def feeding(program, megabytes, rounds):
    for piece in (1, 1400, 1000000):
        times = max(1, megabytes * 1000000 // (38 * piece))
        for what in ("proxy", "spin"):
            plain, ends, tenth = [], [], []
            for _ in range(rounds):
                plain.append(cost(program, ["read", str(piece), str(times)]))
                ends.append(cost(program, [what, str(piece), str(times)]))
                tenth.append(cost(program, [what, str(piece), str(max(1, times // 10))]))
            ratio = statistics.median(e / p for e, p in zip(ends, plain))
            print(f"{what}, pieces of {piece}: {statistics.median(ends):.2f} s,"
                  f" {ratio:.2f} times a plain read, {statistics.median(ends) / statistics.median(tenth):.1f}"
                  f" times a tenth, {memory(program, [what, str(piece), str(times)]):.0f} MB"
                  f" (a tenth: {memory(program, [what, str(piece), str(max(1, times // 10))]):.0f} MB)")


def images(program, rounds):
    for orders in (10000, 100000):
        none = statistics.median(cost(program, ["image", str(orders), "0"]) for _ in range(rounds))
        some = statistics.median(cost(program, ["image", str(orders), "20"]) for _ in range(rounds))
        print(f"an image of {orders} orders: {(some - none) / 20 * 1000:.1f} ms")


def main():
    words = argparse.ArgumentParser()
    words.add_argument("--scratch")
    words.add_argument("--megabytes", type=int, default=100)
    words.add_argument("--rounds", type=int, default=5)
    given = words.parse_args()
    top = os.path.dirname(os.path.dirname(os.path.dirname(os.path.abspath(__file__))))
    scratch = given.scratch or tempfile.mkdtemp(prefix="sessions-")
    os.makedirs(scratch, exist_ok=True)
    program = build(top, scratch)
    feeding(program, given.megabytes, given.rounds)
    images(program, given.rounds)


main()
