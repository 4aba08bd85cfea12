#!/usr/bin/env bash
# Prints how long `fizz tree` takes on generated pages of 1,000, 10,000 and 50,000 leaves in groups of at most 8, on as
# many in one flat list, and on a component that is called 100,000 times with a text of 40 bytes: milliseconds, MB of
# document a second, peak memory, and with which power of the size the time grows. Then, in a throw-away program in a
# temporary folder, over copies of the crates: how long the leaves take from words to bytes, the script's reading apart,
# and in tenths of escaping as many bytes. Not part of the gate.
set -eu
. "$(dirname "$0")/frame.sh"
pages=$(mktemp -d)
trap 'rm -rf "$pages"' EXIT
cd "$root"
./fizz tree examples/comments.jsx examples/comments.json >/dev/null
python3 - "$pages" <<'PY'
import json, math, os, sys, time

pages = sys.argv[1]
program = 'crates/fizz_main/out/fizz_main'
GROUPS = '''function Leaf({ n }) { const v = use("r" + n); if (v === 0) throw "zero"; return <li data-n={n}>{v}</li>; }
function Group({ g }) { return <Suspense fallback={<i>wait</i>}><ul>{g.items.map((n) => <Leaf n={n}/>)}</ul></Suspense>; }
function App() { const all = use("all"); return <main>{all.map((g) => <Group g={g}/>)}</main>; }
'''
FLAT = '''function Leaf({ n }) { const v = use("r" + n); if (v === 0) throw "zero"; return <li data-n={n}>{v}</li>; }
function App() { const all = use("all"); return <main><ul>{all.map((n) => <Leaf n={n}/>)}</ul></main>; }
'''
CALLS = '''function Call({ t }) { return <b>{t}</b>; }
function App() { const all = use("all"); return <main>{all.map((n) => <Call t="0123456789012345678901234567890123456789"/>)}</main>; }
'''


# All groups draw first, in order, and then all leaves; each draw is the next of one linear congruence. Some leaves fail,
# and some never settle.
def in_groups(size):
    x = 7

    def draw():
        nonlocal x
        x = (x * 6364136223846793005 + 1442695040888963407) % 2**64
        return x >> 33

    groups, first = [], 0
    while first < size:
        count = min(draw() % 8 + 1, size - first)
        groups.append({'items': list(range(first, first + count))})
        first += count
    kinds = [draw() % 64 for _ in range(size)]
    return settled(groups, {n: k % 50 for n, k in enumerate(kinds) if k != 63})


# The odd leaves settle before the even ones.
def settled(everything, values):
    leaves = sorted(values, key=lambda n: (n % 2 == 0, n))
    return [{'resolve': 'all', 'value': everything}] + [{'resolve': f'r{n}', 'value': values[n]} for n in leaves]


# No boundary is around the leaves, so that all of them settle.
def in_one_list(size):
    return settled(list(range(size)), {n: n % 49 + 1 for n in range(size)})


# The files are written by another process, so that this one stays small: what it holds counts as the program's.
def write(app, script_of, size):
    pid = os.fork()
    if pid == 0:
        with open(f'{pages}/a.jsx', 'w') as file:
            file.write(app)
        with open(f'{pages}/s.json', 'w') as file:
            json.dump(script_of(size), file, separators=(',', ':'))
        os._exit(0)
    if os.waitpid(pid, 0)[1] != 0:
        sys.exit('the files were not written')


# The bytes of the document, the least of three times, and the most memory.
def tree():
    out = f'{pages}/out.html'
    best, peak = math.inf, 0
    for _ in range(3):
        start = time.perf_counter()
        pid = os.posix_spawn(program, [program, 'tree', f'{pages}/a.jsx', f'{pages}/s.json'], os.environ,
                             file_actions=[(os.POSIX_SPAWN_OPEN, 1, out, os.O_WRONLY | os.O_CREAT | os.O_TRUNC, 0o600)])
        _, status, usage = os.wait4(pid, 0)
        best = min(best, time.perf_counter() - start)
        if status != 0:
            sys.exit(f'fizz tree ended with {os.waitstatus_to_exitcode(status)}')
        peak = max(peak, usage.ru_maxrss / 1000)
    return os.path.getsize(out), best, peak


def series(title, app, script_of, sizes):
    print(title)
    before = None
    for size in sizes:
        write(app, script_of, size)
        length, seconds, peak = tree()
        power = '' if before is None else f'  power {math.log(seconds / before[1]) / math.log(size / before[0]):.2f}'
        print(f'{size:>7}  {length:>9} bytes  {seconds * 1000:9.1f} ms  {length / seconds / 1e6:7.2f} MB/s  {peak:7.0f} MB at most{power}', flush=True)
        before = size, seconds


sizes = (1_000, 10_000, 50_000)
series('leaves in groups', GROUPS, in_groups, sizes)
series('leaves in one list', FLAT, in_one_list, sizes)
series('calls with a text of 40 bytes', CALLS, lambda size: [{'resolve': 'all', 'value': [0] * size}], (10_000, 100_000))
PY
rm -rf "$pages"
time_over tree_bench fizz_text html_names dom_forest jsx_lex jsx_syntax jsx_check settle_script jsx_value \
    settled_tree <<'RT'
#![tactic(auto)]

use dom_forest::print_doc;
use fizz_text::Text;
use html_names::push_escaped;
use jsx_check::check;
use jsx_lex::lex;
use jsx_syntax::parse;
use settle_script::{Outcomes, read_script};
use settled_tree::{expand, final_of};
use std::alloc::Global;
use std::test::Fail;
use std::time::Instant;

const PROGRAM: &str =
    "function Leaf({ n }) { const v = use(\"r\" + n); if (v === 0) throw \"zero\"; return <li data-n={n}>{v}</li>; }\nfunction Group({ g }) { return <Suspense fallback={<i>wait</i>}><ul>{g.items.map((n) => <Leaf n={n}/>)}</ul></Suspense>; }\nfunction App() { const all = use(\"all\"); return <main>{all.map((g) => <Group g={g}/>)}</main>; }\n";

/// So many leaves in groups of 5, each with a value of its own that isn't 0.
fn script_text(alloc: Global, leaves: u32) -> Result<String, Fail> {
    let mut script = String::from_str(alloc, "[{\"resolve\":\"all\",\"value\":[{\"items\":[0")?;
    for leaf in 1..leaves {
        let word = if leaf % 5 == 0 {
            format!(in alloc; "]}},{{\"items\":[{leaf}")?
        } else {
            format!(in alloc; ",{leaf}")?
        };
        script.push_str(word.as_str())?;
    }
    script.push_str("]}]}")?;
    for leaf in 0..leaves {
        let value = leaf % 50 + 1;
        let line = format!(in alloc; ",{{\"resolve\":\"r{leaf}\",\"value\":{value}}}")?;
        script.push_str(line.as_str())?;
    }
    script.push_str("]")?;
    Ok(script)
}

fn document(alloc: Global, outcomes: &Outcomes) -> Result<Vec<u8>, Fail> {
    let tokens = lex(alloc, PROGRAM.as_bytes())?;
    let file = parse(alloc, &tokens, PROGRAM.as_bytes())?;
    let app = check(alloc, file)?;
    let prefix = Text::fixed("");
    let forest = expand(alloc, &app, outcomes, outcomes.len(), &prefix)?;
    let doc = final_of(alloc, &forest)?;
    Ok(print_doc(alloc, &doc)?)
}

fn main(rt: HostRuntime) -> Result<(), Fail> {
    let alloc = rt.alloc();
    for leaves in [1_000u32, 10_000, 50_000] {
        let text = script_text(alloc, leaves)?;
        let script = read_script(alloc, text.as_bytes())?;
        let mut best: u128 = u128::MAX;
        let mut escaping: u128 = u128::MAX;
        let mut count = 0;
        for _ in 0..5 {
            let start = Instant::now(&rt)?;
            let bytes = document(alloc, script.outcomes())?;
            best = best.min(start.elapsed(&rt)?.as_micros());
            let mut escaped = Vec::new(alloc);
            let start = Instant::now(&rt)?;
            push_escaped(&mut escaped, &bytes)?;
            escaping = escaping.min(start.elapsed(&rt)?.as_micros());
            count = bytes.len();
        }
        let tenths = best.saturating_mul(10).checked_div(escaping).unwrap_or(0);
        println!(rt; "{leaves} leaves, {count} bytes: from words to bytes {best} us, escaping {escaping} us, {tenths} tenths")?;
    }
    Ok(())
}
RT
