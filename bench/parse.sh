#!/bin/sh
# Prints how long component files take to be lexed, and to be lexed and parsed, in microseconds, and in hundredths of
# lexing alone: examples/blog.jsx as often as 1 KB and 256 KB hold it, and four shapes of 128 KB and of 256 KB, which
# are to take no more than twice as long. It builds a throw-away program in a temporary folder, over copies of the
# crates.
set -eu
. "$(dirname "$0")/frame.sh"
blog=$(sed 's/["\\]/\\&/g' "$root/examples/blog.jsx")
{
    cat <<'RT'
#![tactic(auto)]

use jsx_lex::lex;
use jsx_syntax::parse;
use std::alloc::{AllocError, Global};
use std::rt::Clock;
use std::test::Fail;
use std::time::Instant;

/// A text of about so many bytes: a head, what is repeated, and a tail.
fn text_of(
    alloc: Global,
    size: usize,
    head: &str,
    piece: &str,
    tail: &str,
) -> Result<String, AllocError> {
    let times = size.checked_div(piece.len()).unwrap_or(0);
    let pieces = piece.repeat(alloc, times)?;
    format!(in alloc; "{head}{pieces}{tail}")
}

/// The least of so many times of lexing, in nanoseconds, and how many tokens there are.
fn lexing<R: AllocGlobal + Clock>(rt: &R, text: &[u8], times: u64) -> Result<(u128, usize), Fail> {
    let mut best: u128 = u128::MAX;
    let mut count = 0;
    for _ in 0..times {
        let start = Instant::now(rt)?;
        let tokens = lex(rt.alloc(), text)?;
        best = best.min(start.elapsed(rt)?.as_nanos());
        count = tokens.len();
    }
    Ok((best, count))
}

/// The least of so many times of lexing and parsing.
fn parsing<R: AllocGlobal + Clock>(rt: &R, text: &str, times: u64) -> Result<u128, Fail> {
    let mut best: u128 = u128::MAX;
    for _ in 0..times {
        let start = Instant::now(rt)?;
        let tokens = lex(rt.alloc(), text.as_bytes())?;
        let file = parse(rt.alloc(), &tokens, text.as_bytes())?;
        best = best.min(start.elapsed(rt)?.as_nanos());
        drop(file);
    }
    Ok(best)
}

fn report<R: AllocGlobal + Clock + Print>(
    rt: &R,
    name: &str,
    text: &str,
    times: u64,
) -> Result<(), Fail> {
    let (alone, tokens) = lexing(rt, text.as_bytes(), times)?;
    let together = parsing(rt, text, times)?;
    let size = text.len();
    let lexed = alone.checked_div(1_000).unwrap_or(0);
    let parsed = together.checked_div(1_000).unwrap_or(0);
    let percent = together.saturating_mul(100).checked_div(alone).unwrap_or(0);
    println!(rt; "{name}: {size} bytes, {tokens} tokens: lexed in {lexed} us, with parsing {parsed} us, {percent} hundredths")?;
    Ok(())
}

/// The four shapes, each of about so many bytes.
fn report_shapes<R: AllocGlobal + Clock + Print>(rt: &R, size: usize) -> Result<(), Fail> {
    let alloc = rt.alloc();
    let text = text_of(alloc, size, "function App() { return <p", " a=\"b\"", "/>; }")?;
    report(rt, "attributes", text.as_str(), 20)?;
    let text = text_of(alloc, size, "function App() { return <p>", "<br/>", "</p>; }")?;
    report(rt, "siblings", text.as_str(), 20)?;
    let text = text_of(alloc, size, "function App() { return a", " + a", "; }")?;
    report(rt, "chain", text.as_str(), 20)?;
    let nest = nest(alloc)?;
    let text = text_of(alloc, size, "function App() { return [", nest.as_str(), "]; }")?;
    report(rt, "nests", text.as_str(), 20)
}

/// A name in as many parentheses as a list that a component returns may hold.
fn nest(alloc: Global) -> Result<String, AllocError> {
    let open = "(".repeat(alloc, 197)?;
    let close = ")".repeat(alloc, 197)?;
    format!(in alloc; "{open}a{close},")
}

fn main(rt: HostRuntime) -> Result<(), Fail> {
    let alloc = rt.alloc();
    let small = text_of(alloc, 1_300, "", blog(), "")?;
    report(&rt, "blog", small.as_str(), 2_000)?;
    let large = text_of(alloc, 262_144, "", blog(), "")?;
    report(&rt, "blog", large.as_str(), 20)?;
    report_shapes(&rt, 131_072)?;
    report_shapes(&rt, 262_144)
}
RT
    printf '\nfn blog() -> &\047static str {\n    "%s\\n"\n}\n' "$blog"
} | time_over parse_bench fizz_text html_names jsx_lex sqlite_items jsx_syntax
