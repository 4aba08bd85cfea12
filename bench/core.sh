#!/bin/sh
# Prints how long the state of a page takes, from its making to its last flush, for 1,000, 10,000 and 50,000 tasks: two of
# each boundary, of which all come late. Their resources settle in ascending order, in descending order, and the odd ones
# before the even ones; after each fiftieth all is rendered and flushed. In milliseconds, in microseconds a task, and with
# which power of the tasks the time grows. It builds a throw-away program in a temporary folder, over copies of the crates.
set -eu
. "$(dirname "$0")/frame.sh"
rows=$(
    time_over core_bench fizz_text html_names id_lists fizz_task fizz_segment fizz_boundary fizz_instructions \
        flush_queues fizz_outside html_print jsx_lex jsx_syntax jsx_check settle_script jsx_value fizz_piece \
        position_laws request_state request_laws inline_run sqlite_items <<'RT'
#![tactic(auto)]

use fizz_outside::MemorySink;
use fizz_piece::{Options, Plan};
use fizz_text::{OutOfMemory, Text};
use inline_run::run_inline;
use jsx_check::check;
use jsx_lex::lex;
use jsx_syntax::{App, parse};
use settle_script::{Script, read_script};
use std::alloc::Global;
use std::rt::Clock;
use std::test::Fail;
use std::time::Instant;

const PROGRAM: &str =
    "function Leaf({ n }) { const v = use(\"r\" + n); return <li data-n={n}>{v}</li>; }\nfunction App() { const all = use(\"all\"); return <ul>{all.map((n) => <Suspense fallback={<i>wait</i>}><Leaf n={n}/></Suspense>)}</ul>; }\n";

#[derive(Clone, Copy)]
enum Order {
    Ascending,
    Descending,
    OddThenEven,
}

/// The boundary that settles after so many others, of so many.
fn settled_after(order: Order, others: u32, count: u32) -> u32 {
    let half = count / 2;
    match order {
        Order::Ascending => others,
        Order::Descending => count.saturating_sub(others).saturating_sub(1),
        Order::OddThenEven => {
            if others < half {
                others.saturating_mul(2).saturating_add(1)
            } else {
                others.saturating_sub(half).saturating_mul(2)
            }
        }
    }
}

/// The script of so many boundaries: the page is flushed before they settle, and after each fiftieth.
fn script_text(alloc: Global, order: Order, count: u32) -> Result<String, Fail> {
    let mut script = String::from_str(alloc, "[{\"resolve\":\"all\",\"value\":[0")?;
    for number in 1..count {
        let word = format!(in alloc; ",{number}")?;
        script.push_str(word.as_str())?;
    }
    script.push_str("]},{\"work\":0},{\"flush\":0}")?;
    for others in 0..count {
        let number = settled_after(order, others, count);
        let line = format!(in alloc; ",{{\"resolve\":\"r{number}\",\"value\":{number}}}")?;
        script.push_str(line.as_str())?;
        if others % 50 == 49 {
            script.push_str(",{\"work\":0},{\"flush\":0}")?;
        }
    }
    script.push_str("]")?;
    Ok(script)
}

fn app_of(alloc: Global) -> Result<App, Fail> {
    let tokens = lex(alloc, PROGRAM.as_bytes())?;
    let file = parse(alloc, &tokens, PROGRAM.as_bytes())?;
    Ok(check(alloc, file)?)
}

/// How many bytes are sent.
fn sent(alloc: Global, plan: Plan<'_>, script: &Script) -> Result<u64, Fail> {
    let mut out = MemorySink::new(Vec::new(alloc));
    match run_inline(alloc, plan, script, &mut out) {
        Ok(report) => Ok(report.written),
        Err(_) => Err(OutOfMemory.into()),
    }
}

/// The bytes that are sent, and the least of three times, in nanoseconds.
fn timed<R: AllocGlobal + Clock>(
    rt: &R,
    plan: Plan<'_>,
    script: &Script,
) -> Result<(u64, u128), Fail> {
    let mut bytes = 0;
    let mut best: u128 = u128::MAX;
    for _ in 0..3 {
        let start = Instant::now(rt)?;
        bytes = sent(rt.alloc(), plan, script)?;
        best = best.min(start.elapsed(rt)?.as_nanos());
    }
    Ok((bytes, best))
}

fn report<R: AllocGlobal + Clock + Print>(
    rt: &R,
    what: &str,
    order: Order,
    tasks: u32,
) -> Result<(), Fail> {
    let alloc = rt.alloc();
    let app = app_of(alloc)?;
    let options = Options {
        prefix: Text::fixed(""),
        progressive: 12_800,
        chunk: 2_048,
    };
    let text = script_text(alloc, order, tasks / 2)?;
    let script = read_script(alloc, text.as_bytes())?;
    let Ok(plan) = Plan::new(alloc, &app, script.outcomes(), &options) else {
        return Err(OutOfMemory.into());
    };
    let (bytes, time) = timed(rt, plan, &script)?;
    println!(rt; "{what};{tasks};{bytes};{time}")?;
    Ok(())
}

fn main(rt: HostRuntime) -> Result<(), Fail> {
    for tasks in [1_000u32, 10_000, 50_000] {
        report(&rt, "ascending", Order::Ascending, tasks)?;
    }
    for tasks in [1_000u32, 10_000, 50_000] {
        report(&rt, "descending", Order::Descending, tasks)?;
    }
    for tasks in [1_000u32, 10_000, 50_000] {
        report(&rt, "odd, then even", Order::OddThenEven, tasks)?;
    }
    Ok(())
}
RT
)
echo "$rows" | awk -F';' '{
    power = $1 == what ? sprintf(", power %.2f", log($4 / time) / log($2 / tasks)) : ""
    printf "%s, %d tasks: %d bytes in %.1f ms, %.2f us a task%s\n", $1, $2, $3, $4 / 1e6, $4 / 1e3 / $2, power
    what = $1; tasks = $2; time = $4
}'
