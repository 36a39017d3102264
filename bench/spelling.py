"""The program crate that times the spelling of an edit."""
import os
import re
import struct
import subprocess

import keyrings
import timing
from measure import HERE, in_turn, megabytes, output, shown, table, times

KEYS = 100_000

SOURCE = """//! Reads a payload from standard input, and prints the nanoseconds of each decoding and of each encoding.
#![tactic(auto)]

ghost use Rattle.std.specs.Prelude.{◌≤◌, length};
ghost use Rattle.wot_types.specs.Limits.{most_record};
ghost use Rattle.wot_types.specs.Payload.{IsProper, payload};

use std::io;
use std::io::{ErrorKind, Print, Read};
use std::time::{Clock, Instant};
use wot_spelling::{decode, encode, payload_length};
use wot_types::{Edit, MOST_RECORD};

fn encode_once(rt: &(impl Clock + AllocGlobal + Print), edit: &Edit) -> io::Result<()>
    requires proper { IsProper edit.now }
    requires room { length (payload edit.now) ≤ most_record }
{
    let start = Instant::now(rt)?;
    let bytes = encode(rt.alloc(), edit).map_err(|_| io::Error::from(ErrorKind::OutOfMemory))?;
    let took = start.elapsed(rt)?.as_nanos();
    let length = bytes.len();
    println!(rt; "encode {took} {length}")
}

fn decode_once(rt: &(impl Clock + AllocGlobal + Print), bytes: &[u8]) -> io::Result<()> {
    let start = Instant::now(rt)?;
    let found = decode(rt.alloc(), bytes).map_err(|_| io::Error::from(ErrorKind::OutOfMemory))?;
    let took = start.elapsed(rt)?.as_nanos();
    match found {
        Some(edit) if payload_length(&edit) <= MOST_RECORD => {
            println!(rt; "decode {took}")?;
            encode_once(rt, &edit)
        }
        _ => Err(io::Error::from(ErrorKind::InvalidData)),
    }
}

fn main(rt: HostRuntime) -> io::Result<()> {
    let mut bytes = Vec::new(rt.alloc());
    rt.reader().read_to_end(&mut bytes)?;
    for _turn in 0..5u32 {
        decode_once(&rt, bytes.as_slice())?;
    }
    Ok(())
}
"""


def least(program, payload):
    """The least seconds of a decoding and of an encoding of a payload."""
    with open(payload, "rb") as given:
        told = subprocess.run([program], stdin=given, capture_output=True, text=True, check=True).stdout
    return tuple(min(int(took) for took in re.findall(rf"^{name} (\d+)", told, re.M)) / 1e9 for name in ("decode", "encode"))


def payload_of(bench):
    """The payload of the one record that an import makes, in a file."""
    where = bench.store("spelled", (["import"], keyrings.written(bench.path("listing"), keyrings.plain_key, KEYS)))
    with open(os.path.join(where, "wot.0"), "rb") as store, open(bench.path("payload"), "wb") as file:
        _, pages = struct.unpack(">QQ", store.read(24)[8:])
        store.seek(24 + 4096 * pages + 1)
        (length,) = struct.unpack(">I", store.read(4))
        file.write(store.read(length))
    return bench.path("payload")


def part(bench):
    """Encoding and decoding the record of an import, beside a copy of its bytes."""
    program = timing.built(bench.path("spelling"), os.path.dirname(HERE), "spelling", SOURCE, ("wot_types", "wot_marks", "wot_spelling"))
    payload, copy = payload_of(bench), bench.floor("copy")
    size = os.path.getsize(payload)
    rows = in_turn(lambda: (int(output([copy, payload, "5"])) / 1e9,), lambda: least(program, payload))
    (floor,), (decoding, encoding) = rows
    rows = [
        (name, shown(seconds), f"{size / 1e6 / seconds:.0f} MB/s", times(seconds, floor))
        for name, seconds in (("a copy of its bytes", floor), ("encode", encoding), ("decode", decoding))
    ]
    table(f"The record of an import of {KEYS:,} keys with four certifications each, {megabytes(size)}", ("", "seconds", "speed", "times the copy"), rows)
