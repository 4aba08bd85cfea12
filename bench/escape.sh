#!/bin/sh
# Prints how fast a text is escaped, in MB/s, at 1, 10 and 100 MB. It builds a throw-away program in a temporary
# folder, over copies of the crates.
set -eu
. "$(dirname "$0")/frame.sh"
time_over escape_bench fizz_text html_names <<'RT'
#![tactic(auto)]

use html_names::push_escaped;
use std::test::Fail;
use std::time::Instant;

fn main(rt: HostRuntime) -> Result<(), Fail> {
    let line = b"A line of text, with <em>some</em> marks & a \"quote\" in a hundred bytes, as a page may have it: 12345.\n";
    for megabytes in [1u64, 10, 100] {
        let mut text = Vec::new(rt.alloc());
        for _ in 0..megabytes * 10_000 {
            text.extend_from_slice(line)?;
        }
        let mut out = Vec::new(rt.alloc());
        let start = Instant::now(&rt)?;
        push_escaped(&mut out, &text)?;
        let micros = start.elapsed(&rt)?.as_micros();
        let rate = (text.len() as u128).checked_div(micros).unwrap_or(0);
        println!(rt; "{megabytes} MB: {rate} MB/s")?;
    }
    Ok(())
}
RT
