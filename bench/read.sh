#!/usr/bin/env bash
# Prints how fast a page is read, in MB/s, at 1, 10 and 100 MB in pieces of 1 byte, 100 bytes and 64 KB. It proves and
# runs a throw-away program in a temporary folder, over a copy of the crates. Not part of the gate.
set -eu
root=$(cd "$(dirname "${BASH_SOURCE[0]}")/.." && pwd)
work=$(mktemp -d)
trap 'rm -rf "$work"' EXIT
program=$work/crates/read_bench
mkdir -p "$program/src" "$program/proofs/read_all"
for crate in fizz_text html_names html_read; do
    cp -r "$root/crates/$crate" "$work/crates/$crate"
done
printf 'fizz_text: thiserror\nhtml_names: fizz_text serde_json thiserror\nhtml_read: fizz_text html_names thiserror\nread_bench: html_read\n' >"$work/crates.txt"
cat >"$program/src/main.rt" <<'RT'
//! Times the reader over a page in pieces.
#![tactic(auto)]

ghost use Rattle.std.specs.Prelude.{◌≡◌, ◌+◌, ◌<◌, ◌^◌, length, [], ◌≤◌};

use html_read::Reader;
use std::alloc::Global;
use std::io;
use std::time::Instant;

const LINE: &[u8] = b"<p title=\"a &amp; b\">A line of text &lt; with some marks, as a page may have it, 100 bytes<br/></p>\n";

/// The tokens of a page that is read in pieces, or None where it is none.
fn read_all(alloc: Global, page: &[u8], size: usize) -> Option<usize>
    requires room { length page.now < 2 ^ 62 }
    requires some { 0 < size }
{
    let mut reader = Reader::new(alloc);
    let mut tokens: usize = 0;
    let mut at = 0;
    'pieces: while at < page.len() {
        let end = at + size.min(page.len() - at);
        match reader.feed(&page[at..end]) {
            Ok(new) => tokens = tokens.saturating_add(new.len()),
            Err(_) => return None,
        }
        at = end;
    }
    Some(tokens)
}

fn main(rt: HostRuntime) -> io::Result<()> {
    for megabytes in [1usize, 10, 100] {
        let mut page = Vec::new(rt.alloc());
        for _ in 0..megabytes * 10_000 {
            page.extend_from_slice(LINE)?;
        }
        if page.len() >= 1 << 61 {
            continue;
        }
        for size in [1usize, 100, 65_536] {
            let start = Instant::now(&rt)?;
            let tokens = read_all(rt.alloc(), &page, size).unwrap_or(0);
            let micros = start.elapsed(&rt)?.as_micros();
            let rate = (page.len() as u128).checked_div(micros).unwrap_or(0);
            println!(rt; "{megabytes} MB in pieces of {size}: {tokens} tokens, {rate} MB/s")?;
        }
    }
    Ok(())
}
RT
cat >"$program/proofs/read_all/Invariants.antt" <<'ANTT'
use Rattle.std.proofs.Common.{◌≡◌, ◌≤◌, ◌+◌, ◌-◌, length, None}
use Rattle.read_bench.proofs.read_all.Given as goal

-- what the reader holds and gave is the front up to here
abbrev pub invariant-pieces : goal.invariant-pieces
invariant-pieces l = record { within : l.at ≤ length l.page; held : l.reader.place + length l.reader.rest ≡ l.at }

abbrev pub decreases-pieces : goal.decreases-pieces
decreases-pieces l = length l.page - l.at
ANTT
cd "$program"
rt run 2>&1 | grep 'MB in pieces'
