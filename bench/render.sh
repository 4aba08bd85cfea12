#!/usr/bin/env bash
# Prints how long `fizz render` takes, from words to bytes: on literal pages of 1 KB, 32 KB and 256 KB; on generated pages
# of 1,000, 10,000 and 50,000 leaves, all of them ready at once and with sixteen flushes; and `fizz gen` of these sizes.
# Milliseconds, MB of page a second, peak memory, and with which power of the size the time grows. Not part of the gate.
set -eu
cd "$(dirname "${BASH_SOURCE[0]}")/.."
./fizz render examples/hello.jsx examples/hello.json >/dev/null
work=$(mktemp -d)
trap 'rm -rf "$work"' EXIT
python3 - "$work" <<'PY'
import json, math, os, sys, time

work = sys.argv[1]
program = 'crates/fizz_main/out/fizz_main'
APP = '''function Leaf({ n }) { const v = use("r" + n); if (v === 0) throw "zero"; return <li data-n={n}>{v}</li>; }
function Group({ g }) { return <Suspense fallback={<i>wait</i>}><ul>{g.items.map((n) => <Leaf n={n}/>)}</ul></Suspense>; }
function App() { const all = use("all"); return <main>{all.map((g) => <Group g={g}/>)}</main>; }
'''


# All groups draw first, in order, and then all leaves; each draw is the next of one linear congruence.
def groups_and_values(size):
    x = 7

    def draw():
        nonlocal x
        x = (x * 6364136223846793005 + 1442695040888963407) % 2**64
        return x >> 33

    groups, first = [], 0
    while first < size:
        count = min(draw() % 8 + 1, size - first)
        groups.append({'items': list(range(first, first + count))})
        first += count
    kinds = [draw() % 64 for _ in range(size)]
    return groups, {n: k % 50 for n, k in enumerate(kinds) if k != 63}


# The odd leaves settle before the even ones. With flushes, all is rendered and sent after each sixteenth of them.
def script(size, flushes):
    groups, values = groups_and_values(size)
    lines = [{'resolve': 'all', 'value': groups}]
    leaves = sorted(values, key=lambda n: (n % 2 == 0, n))
    part = math.ceil(len(leaves) / flushes) if flushes else len(leaves) + 1
    if flushes:
        lines += [{'work': 0}, {'flush': 0}]
    for at, n in enumerate(leaves, 1):
        lines.append({'resolve': f'r{n}', 'value': values[n]})
        if at % part == 0:
            lines += [{'work': 0}, {'flush': 0}]
    return lines


# The files are written by another process, so that this one stays small: what it holds counts as the program's.
def write(app, lines_of):
    pid = os.fork()
    if pid == 0:
        with open(f'{work}/a.jsx', 'w') as file:
            file.write(app)
        with open(f'{work}/s.json', 'w') as file:
            json.dump(lines_of(), file, separators=(',', ':'))
        os._exit(0)
    if os.waitpid(pid, 0)[1] != 0:
        sys.exit('the files were not written')


# The bytes that are written, the least of five times in milliseconds, and the most memory in MB.
def run(*words):
    out = f'{work}/out.html'
    best, peak = math.inf, 0
    for _ in range(5):
        start = time.perf_counter()
        pid = os.posix_spawn(program, [program, *words], os.environ,
                             file_actions=[(os.POSIX_SPAWN_OPEN, 1, out, os.O_WRONLY | os.O_CREAT | os.O_TRUNC, 0o600)])
        _, status, used = os.wait4(pid, 0)
        best = min(best, time.perf_counter() - start)
        peak = max(peak, used.ru_maxrss / 1024)
        if status != 0:
            sys.exit(f'{words} ended with {os.waitstatus_to_exitcode(status)}')
    return os.path.getsize(out), best * 1e3, peak


def report(what, sizes, measure):
    before = None
    for size in sizes:
        length, took, peak = measure(size)
        power = '' if before is None else f'  power {math.log(took / before[1]) / math.log(size / before[0]):.2f}'
        print(f'{what} {size:>7}  {took:9.2f} ms  {length / took / 1e3:7.2f} MB/s  {peak:6.0f} MB{power}')
        before = (size, took)


def literal(size):
    item = '<li title="it\'s so">one <b>two</b> three</li>'
    head, tail = 'function App() { return <ul>', '</ul>; }\n'
    write(head + item * ((size - len(head) - len(tail)) // len(item)) + tail, lambda: [])
    return run('render', f'{work}/a.jsx', f'{work}/s.json')


def generated(flushes):
    def measure(size):
        write(APP, lambda: script(size, flushes))
        return run('render', f'{work}/a.jsx', f'{work}/s.json')
    return measure


SIZES = (1000, 10000, 50000)
report('literal page, bytes   ', (1024, 32768, 262144), literal)
report('ready leaves          ', SIZES, generated(0))
report('leaves, 16 flushes    ', SIZES, generated(16))
report('fizz gen 7, leaves    ', SIZES, lambda size: run('gen', '7', str(size)))
PY
