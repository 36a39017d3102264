"""The program crate that times pages and images by themselves: reading the pages of a side that is in memory, and reading the image that they hold."""
import os
import re
import subprocess

import bases
import timing
from measure import HERE, in_turn, megabytes, shown, table, times

SOURCE = """//! Reads a side of a store from standard input, and prints the nanoseconds of reading its pages by one worker and by four,
//! of their seals by themselves, and of reading the image that they hold.
#![tactic(auto)]

ghost use Rattle.std.specs.Prelude.{◌≡◌, ◌≤◌, [], Some, IfOk};
ghost use Rattle.wot_site.specs.MemorySite.{first_seen};

use sha2::{Digest, Sha256};
use std::alloc::Global;
use std::io;
use std::io::{ErrorKind, Print, Read};
use std::thread::Threads;
use std::time::{Clock, Instant};
use wot_image::read_base;
use wot_pages::{CONTENT, FIRST, PAGE, read_pages};
use wot_site::{MemorySite, Side, Site};
use wot_types::Mem;
use wot_workers::{NoGate, Workers};

fn site_of(alloc: Global, bytes: &[u8]) -> Result<MemorySite, Mem>
    ensures { IfOk result (λ site. ⟦<MemorySite as Site>⟧.seen site ≡ Some (first_seen [] bytes.now [])) }
{
    let zero = Vec::from_slice(alloc, bytes)?;
    MemorySite::new(alloc, Vec::new(alloc), zero, Vec::new(alloc))
}

fn failed() -> io::Error {
    io::Error::from(ErrorKind::InvalidData)
}

fn pages_once<R: Threads + Sync + Clock + AllocGlobal + Print>(rt: &R, bytes: &[u8], epoch: u64, count: u32) -> io::Result<Vec<u8>>
    requires { (1 ≤ count) × (count ≤ 64) }
{
    let mut site = site_of(rt.alloc(), bytes).map_err(|_| failed())?;
    let pages = (bytes.len() as u64).saturating_sub(FIRST + 1) / PAGE as u64;
    if pages > 100_000 || (bytes.len() as u64) < FIRST + PAGE as u64 * pages {
        return Err(failed());
    }
    let workers = Workers { rt, count, gate: &NoGate };
    let start = Instant::now(rt)?;
    let read = read_pages(&workers, rt.alloc(), &mut site, Side::Zero, epoch, pages);
    let took = start.elapsed(rt)?.as_nanos();
    println!(rt; "pages {count} {took}")?;
    read.map_err(|_| failed())
}

fn sums_once(rt: &(impl Clock + AllocGlobal + Print), contents: &[u8]) -> io::Result<()> {
    let mut first = 0u64;
    let start = Instant::now(rt)?;
    for content in contents.chunks(CONTENT) {
        let mut hasher = Sha256::new();
        hasher.update(&[0u8; 16]);
        hasher.update(content);
        let seal = hasher.finalize();
        first = first.wrapping_add(seal[0] as u64);
    }
    let took = start.elapsed(rt)?.as_nanos();
    println!(rt; "sums {took} {first}")
}

fn image_once(rt: &(impl Clock + AllocGlobal + Print), contents: &[u8]) -> io::Result<()> {
    let start = Instant::now(rt)?;
    let read = read_base(rt.alloc(), contents, CONTENT);
    let took = start.elapsed(rt)?.as_nanos();
    match read {
        Ok(Some(_)) => println!(rt; "image {took}"),
        _ => Err(failed()),
    }
}

fn main(rt: HostRuntime) -> io::Result<()> {
    let mut bytes = Vec::new(rt.alloc());
    rt.reader().read_to_end(&mut bytes)?;
    let epoch = match bytes.get(8..16) {
        Some([a, b, c, d, e, f, g, h]) => u64::from_be_bytes([*a, *b, *c, *d, *e, *f, *g, *h]),
        _ => return Err(failed()),
    };
    for _turn in 0..5u32 {
        let contents = pages_once(&rt, bytes.as_slice(), epoch, 1)?;
        pages_once(&rt, bytes.as_slice(), epoch, 4)?;
        sums_once(&rt, contents.as_slice())?;
        image_once(&rt, contents.as_slice())?;
    }
    Ok(())
}
"""
CRATES = ("wot_types", "wot_index", "wot_table", "wot_marks", "wot_spelling", "wot_image", "wot_site", "wot_workers", "wot_pages")
JOBS = {
    "the seals alone, by the kit's SHA-256": "sums",
    "reading the pages, by 1 worker": "pages 1",
    "reading the pages, by 4 workers": "pages 4",
    "reading the image": "image",
}


def told(program, side):
    """The least seconds of each job on a side."""
    with open(side, "rb") as given:
        lines = subprocess.run([program], stdin=given, capture_output=True, text=True, check=True).stdout
    return tuple(min(int(took) for took in re.findall(rf"^{name} (\d+)", lines, re.M)) / 1e9 for name in JOBS.values())


def part(bench):
    """Reading the pages of a base that is in memory, and its image, beside the seals by themselves."""
    program = timing.built(bench.path("sealing"), os.path.dirname(HERE), "sealing", SOURCE, CRATES, "sha2")
    where = bases.moved(bench, bases.imported(bench, "imported", bench.keys), "moved")
    side = os.path.join(where, "wot.1")
    (seconds,) = in_turn(lambda: told(program, side))
    rows = [(name, shown(took), times(took, seconds[0])) for name, took in zip(JOBS, seconds)]
    table(f"Pages and image of a base of {bench.keys:,} made keys, {megabytes(os.path.getsize(side))}, in memory", ("", "seconds", "times the seals"), rows)
