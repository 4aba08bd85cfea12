#!/bin/sh
# Prints how long one piece of 1,000, 10,000 and 50,000 leaves takes, without a hole and with a hole at every leaf: in
# milliseconds, in MB/s, in how many times what escaping as many bytes takes, and with which power of the leaves the time
# grows. It builds a throw-away program in a temporary folder, over copies of the crates.
set -eu
. "$(dirname "$0")/frame.sh"
rows=$(
    time_over piece_bench fizz_text html_names html_print jsx_lex jsx_syntax jsx_check settle_script jsx_value \
        fizz_piece sqlite_items <<'RT'
#![tactic(auto)]

ghost use Rattle.std.specs.Prelude.{◌≤◌, length};
ghost use Rattle.fizz_piece.specs.Pieces.{IsGoodWork};

use fizz_piece::{Flags, Options, Piece, Plan, Work, render_piece};
use fizz_text::{OutOfMemory, Path, Text};
use html_names::push_escaped;
use jsx_check::check;
use jsx_syntax::{App, Component, Entry, Expr, File, Name, Node, Stmt};
use jsx_value::{Scope, Spot};
use settle_script::read_script;
use sqlite_items::{Boxed, Items};
use std::alloc::Global;
use std::rt::Clock;
use std::test::Fail;
use std::time::Instant;

fn name(text: &'static str) -> Name {
    Name {
        text: Text::fixed(text),
        at: 0,
    }
}

fn one<T: Drop>(alloc: Global, item: T) -> Result<Items<T>, Fail> {
    let mut items = Items::new(alloc);
    items.push(item)?;
    Ok(items)
}

fn element(alloc: Global, tag: &'static str, kid: Node) -> Result<Node, Fail> {
    Ok(Node::Host {
        name: name(tag),
        props: Items::new(alloc),
        kids: one(alloc, kid)?,
    })
}

fn fetch(variable: &'static str, resource: Expr) -> Stmt {
    Stmt::Fetch {
        name: name(variable),
        resource,
    }
}

/// `function Leaf({ n }) { return <b>{n}</b>; }`, with `const x = use(n);` first where it is a hole.
fn leaf(alloc: Global, is_hole: bool) -> Result<Component, Fail> {
    let mut stmts = Items::new(alloc);
    if is_hole {
        stmts.push(fetch("x", Expr::Name(name("n"))))?;
    }
    Ok(Component {
        name: name("Leaf"),
        properties: one(alloc, name("n"))?,
        stmts,
        result: element(alloc, "b", Node::Value(Expr::Name(name("n"))))?,
    })
}

/// `function App() { const all = use("all"); return <main>{all.map((n) => <li><Leaf n={n}/></li>)}</main>; }`
fn page(alloc: Global, is_hole: bool) -> Result<File, Fail> {
    let argument = Entry {
        name: name("n"),
        value: Node::Value(Expr::Name(name("n"))),
    };
    let call = Node::Call {
        name: name("Leaf"),
        props: one(alloc, argument)?,
    };
    let list = Node::Map {
        list: Expr::Name(name("all")),
        item: name("n"),
        number: None,
        body: Boxed::new(alloc, element(alloc, "li", call)?)?,
    };
    let mut components = one(alloc, leaf(alloc, is_hole)?)?;
    components.push(Component {
        name: name("App"),
        properties: Items::new(alloc),
        stmts: one(alloc, fetch("all", Expr::Text(Text::fixed("all"))))?,
        result: element(alloc, "main", list)?,
    })?;
    Ok(File { components })
}

fn script_text(alloc: Global, leaves: u32) -> Result<String, Fail> {
    let mut script = String::from_str(alloc, "[{\"resolve\":\"all\",\"value\":[0")?;
    for number in 1..leaves {
        let word = format!(in alloc; ",{number}")?;
        script.push_str(word.as_str())?;
    }
    script.push_str("]}]")?;
    Ok(script)
}

fn app_of(alloc: Global, is_hole: bool) -> Result<App, Fail> {
    let file = page(alloc, is_hole)?;
    Ok(check(alloc, file)?)
}

fn root_work<'a>(alloc: Global, plan: &Plan<'a>, settled: u32) -> Work<'a>
    requires { settled ≤ length plan.now.outcomes.now }
    ensures { IsGoodWork plan.now result }
{
    Work {
        task: 0,
        claim: 0,
        path: Path::new(alloc),
        spot: Spot::Root,
        scope: Scope::empty(alloc),
        settled,
        flags: Flags {
            lead: false,
            embedded: false,
        },
    }
}

fn printed<'a>(alloc: Global, plan: &Plan<'a>) -> Result<Vec<u8>, Fail> {
    let work = root_work(alloc, plan, plan.outcomes.len());
    match render_piece(alloc, plan, work) {
        Ok(Piece::Done { bytes, .. }) => Ok(bytes),
        _ => Err(OutOfMemory.into()),
    }
}

/// The bytes of the piece, and the least of five times, in nanoseconds.
fn timed<'a, R: AllocGlobal + Clock>(rt: &R, plan: &Plan<'a>) -> Result<(Vec<u8>, u128), Fail> {
    let mut bytes = Vec::new(rt.alloc());
    let mut best: u128 = u128::MAX;
    for _ in 0..5 {
        let start = Instant::now(rt)?;
        bytes = printed(rt.alloc(), plan)?;
        best = best.min(start.elapsed(rt)?.as_nanos());
    }
    Ok((bytes, best))
}

/// The least of five times in which as many bytes are escaped.
fn escaping<R: AllocGlobal + Clock>(rt: &R, bytes: &[u8]) -> Result<u128, Fail> {
    let mut best: u128 = u128::MAX;
    for _ in 0..5 {
        let mut escaped = Vec::new(rt.alloc());
        let start = Instant::now(rt)?;
        push_escaped(&mut escaped, bytes)?;
        best = best.min(start.elapsed(rt)?.as_nanos());
    }
    Ok(best)
}

fn report<R: AllocGlobal + Clock + Print>(
    rt: &R,
    what: &str,
    app: &App,
    leaves: u32,
) -> Result<(), Fail> {
    let alloc = rt.alloc();
    let options = Options {
        prefix: Text::fixed(""),
        progressive: 12_800,
        chunk: 2_048,
    };
    let text = script_text(alloc, leaves)?;
    let script = read_script(alloc, text.as_bytes())?;
    let Ok(plan) = Plan::new(alloc, app, script.outcomes(), &options) else {
        return Err(OutOfMemory.into());
    };
    let (bytes, printing) = timed(rt, &plan)?;
    let escaping = escaping(rt, &bytes)?;
    let count = bytes.len();
    println!(rt; "{what};{leaves};{count};{printing};{escaping}")?;
    Ok(())
}

fn main(rt: HostRuntime) -> Result<(), Fail> {
    let alloc = rt.alloc();
    for leaves in [1_000u32, 10_000, 50_000] {
        report(&rt, "no hole", &app_of(alloc, false)?, leaves)?;
    }
    for leaves in [1_000u32, 10_000, 50_000] {
        report(&rt, "a hole at each leaf", &app_of(alloc, true)?, leaves)?;
    }
    Ok(())
}
RT
)
echo "$rows" | awk -F';' '{
    power = $1 == what ? sprintf(", power %.2f", log($4 / time) / log($2 / leaves)) : ""
    printf "%s, %d leaves: %d bytes in %.2f ms, %.1f MB/s, %.1f times escaping%s\n",
        $1, $2, $3, $4 / 1e6, $3 * 1e3 / $4, $4 / $5, power
    what = $1; leaves = $2; time = $4
}'
