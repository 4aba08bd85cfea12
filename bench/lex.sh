#!/bin/sh
# Prints how fast component files are lexed, in MB/s, at 1 KB and 256 KB. It builds a throw-away program in a
# temporary folder, over a copy of the crate.
set -eu
. "$(dirname "$0")/frame.sh"
time_over lex_bench jsx_lex <<'RT'
#![tactic(auto)]

use jsx_lex::lex;
use std::test::Fail;
use std::time::Instant;

fn main(rt: HostRuntime) -> Result<(), Fail> {
    let line = b"function Comment({ c }) { const a = use(\"a:\" + c); return <li data-id={c.id}><b>{c.author}</b>: some text &amp; {a.text}</li>; }\n";
    for (lines, times) in [(8u64, 10_000u64), (2_000, 40)] {
        let mut text = Vec::new(rt.alloc());
        for _ in 0..lines {
            text.extend_from_slice(line)?;
        }
        let start = Instant::now(&rt)?;
        let mut tokens: u64 = 0;
        for _ in 0..times {
            tokens = lex(rt.alloc(), &text)?.len() as u64;
        }
        let micros = start.elapsed(&rt)?.as_micros();
        let bytes = text.len() as u128;
        let rate = (bytes.saturating_mul(u128::from(times))).checked_div(micros).unwrap_or(0);
        println!(rt; "{bytes} bytes, {tokens} tokens: {rate} MB/s")?;
    }
    Ok(())
}
RT
