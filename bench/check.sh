#!/bin/sh
# Prints how long component files take to be lexed, and to be lexed, parsed and checked together, in microseconds, in
# nanoseconds a byte, and in hundredths of lexing alone: ordinary pages of 64, 128 and 256 KB, and 1,000 components which
# name those before them as often as 256 KB allow. It builds a throw-away program in a temporary folder, over copies of
# the crates.
set -eu
. "$(dirname "$0")/frame.sh"
time_over check_bench fizz_text html_names jsx_lex jsx_syntax jsx_check <<'RT'
#![tactic(auto)]

use jsx_check::check;
use jsx_lex::lex;
use jsx_syntax::parse;
use std::alloc::Global;
use std::rt::Clock;
use std::test::Fail;
use std::time::Instant;

/// So many components as pages have them, each with a name of its own.
fn ordinary(alloc: Global, count: u32) -> Result<String, Fail> {
    let mut text = String::from_str(alloc, "function C0({ c, n }) { return <b title={c.t}>{n}</b>; }\n")?;
    for number in 1..count {
        let name = format!(in alloc; "function C{number}")?;
        text.push_str(name.as_str())?;
        text.push_str("({ c, n }) { const a = use(\"post:\" + c); if (a.gone) throw \"gone\"; return <article className=\"post\" data-id={c}><h2>{a.title}</h2><p>Some text &amp; more of it, as pages have it in a paragraph of a line or two.</p>{a.tags.map((t, i) => <span key={i} title={t.name}>{t.label}{i === 0 ? \", \" : \"\"}</span>)}{n && <C0 c={c} n={n}/>}</article>; }\n")?;
    }
    text.push_str("function App() { return 1; }\n")?;
    Ok(text)
}

/// 999 components and `App`. Each of the first names all before it, the others none.
fn all_named(alloc: Global, naming: u32) -> Result<String, Fail> {
    let mut text = String::new(alloc);
    for number in 0..999u32 {
        let head = format!(in alloc; "function C{number}() {{ return [")?;
        text.push_str(head.as_str())?;
        let count = if number < naming { number } else { 0 };
        for other in 0..count {
            let call = format!(in alloc; "<C{other}/>,")?;
            text.push_str(call.as_str())?;
        }
        text.push_str("]; }\n")?;
    }
    text.push_str("function App() { return 1; }\n")?;
    Ok(text)
}

/// 999 components and `App`. Each names so many before it.
fn some_named(alloc: Global, most: u32) -> Result<String, Fail> {
    let mut text = String::new(alloc);
    for number in 0..999u32 {
        let head = format!(in alloc; "function C{number}() {{ return [")?;
        text.push_str(head.as_str())?;
        let first = number.saturating_sub(most);
        for other in first..number {
            let call = format!(in alloc; "<C{other}/>,")?;
            text.push_str(call.as_str())?;
        }
        text.push_str("]; }\n")?;
    }
    text.push_str("function App() { return 1; }\n")?;
    Ok(text)
}

/// The least of several times of lexing, in nanoseconds.
fn lexing<R: AllocGlobal + Clock>(rt: &R, text: &str) -> Result<u128, Fail> {
    let mut best: u128 = u128::MAX;
    for _ in 0..15 {
        let start = Instant::now(rt)?;
        let tokens = lex(rt.alloc(), text.as_bytes())?;
        best = best.min(start.elapsed(rt)?.as_nanos());
        drop(tokens);
    }
    Ok(best)
}

/// The same of lexing, parsing and checking.
fn all_steps<R: AllocGlobal + Clock>(rt: &R, text: &str) -> Result<u128, Fail> {
    let mut best: u128 = u128::MAX;
    for _ in 0..15 {
        let start = Instant::now(rt)?;
        let tokens = lex(rt.alloc(), text.as_bytes())?;
        let file = parse(rt.alloc(), &tokens, text.as_bytes())?;
        let app = check(rt.alloc(), file)?;
        best = best.min(start.elapsed(rt)?.as_nanos());
        drop(app);
    }
    Ok(best)
}

fn report<R: AllocGlobal + Clock + Print>(rt: &R, what: &str, text: &str) -> Result<(), Fail> {
    let bytes = text.len();
    let alone = lexing(rt, text)?;
    let together = all_steps(rt, text)?;
    let lexed = alone.checked_div(1_000).unwrap_or(0);
    let checked = together.checked_div(1_000).unwrap_or(0);
    let each = together.checked_div(bytes as u128).unwrap_or(0);
    let percent = together.saturating_mul(100).checked_div(alone).unwrap_or(0);
    println!(rt; "{what}: {bytes} bytes: lexed in {lexed} us, together {checked} us, {each} ns a byte, {percent} hundredths")?;
    Ok(())
}

fn main(rt: HostRuntime) -> Result<(), Fail> {
    let alloc = rt.alloc();
    for count in [183u32, 366, 733] {
        let text = ordinary(alloc, count)?;
        report(&rt, "ordinary pages", text.as_str())?;
    }
    let text = all_named(alloc, 252)?;
    report(&rt, "252 of 1,000 components name all before them", text.as_str())?;
    let text = some_named(alloc, 29)?;
    report(&rt, "1,000 components name 29 before them", text.as_str())
}
RT
