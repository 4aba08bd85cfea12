#!/usr/bin/env bash
# Times `fizz show`: pages of 1, 10 and 50 MB without scripts, against escaping as many bytes in the same run; pages of
# 1,000, 10,000 and 100,000 late boundaries; chains of boundaries in one another of which the innermost is shown first, of
# 1,000 and 10,000; and chains of segments, each put into the one before it, of 10,000 and 40,000. It prints seconds a
# call, MB of page a second and peak memory, also a byte of the page. From one size to the next it says with which power
# of the size the time grows: 1 is in proportion, 2 with the square. A call may take 8 GB. Not part of the gate.
set -eu
cd "$(dirname "${BASH_SOURCE[0]}")/.."
./fizz render examples/hello.jsx examples/hello.json >/dev/null
work=$(mktemp -d)
trap 'rm -rf "$work"' EXIT
step=${step:-run} bash bench/escape.sh >"$work/escape"
ulimit -v 8388608
python3 - "$work" <<'PY'
import math, os, re, sys, time

work = sys.argv[1]
program = 'crates/fizz_main/out/fizz_main'
escaping = {int(size): float(rate) for size, rate in re.findall(r'(\d+) MB: (\d+) MB/s', open(f'{work}/escape').read())}
functions = open('crates/fizz_instructions/src/functions.rt').read().replace('\\"', '"')
reveal = re.search(r'\$RC=function.*?o\.data="\$"\}\};', functions, re.S).group(0)
fill = re.search(r'\$RS=function.*?removeChild\(p\)\};', functions, re.S).group(0)
line = '<p title="a &amp; b">A line of text &lt; with some marks, as a page may have it, 100 bytes<br/></p>'


def plain(megabytes):
    yield '<main>'
    for _ in range(megabytes * 1_000_000 // len(line)):
        yield line
    yield '</main>'


def waits(n):
    return f'<!--$?--><template id="B:{n:x}"></template><i>wait</i><!--/$-->'


def late(count):
    yield '<main>'
    for n in range(count):
        yield waits(n)
    yield '</main>'
    for n in range(count):
        function = reveal if n == 0 else ''
        yield f'<div hidden id="S:{n:x}"><p>x</p></div><script>{function}$RC("B:{n:x}","S:{n:x}")</script>'


# Each boundary's content holds the next boundary, and the last is put into its place first.
def inside_out(count):
    yield waits(0)
    for n in range(count):
        inner = waits(n + 1) if n + 1 < count else 'x'
        yield f'<div hidden id="S:{n:x}"><p>{inner}</p></div>'
    for n in reversed(range(count)):
        function = reveal if n + 1 == count else ''
        yield f'<script>{function}$RC("B:{n:x}","S:{n:x}")</script>'


# Each segment holds the place of the next.
def segments(count):
    yield '<template id="P:0"></template>'
    for n in range(count):
        function = fill if n == 0 else ''
        yield f'<div hidden id="S:{n:x}"><i>x</i><template id="P:{n + 1:x}"></template></div>'
        yield f'<script>{function}$RS("S:{n:x}","P:{n:x}")</script>'


# The page is written piece by piece, so that this process stays small: what it holds counts as the child's.
def show(pieces):
    path = f'{work}/page.html'
    with open(path, 'w') as file:
        file.writelines(pieces)
    start = time.perf_counter()
    sink = os.open(os.devnull, os.O_WRONLY)
    pid = os.posix_spawn(program, [program, 'show', path], os.environ, file_actions=[(os.POSIX_SPAWN_DUP2, sink, 1)])
    _, status, usage = os.wait4(pid, 0)
    os.close(sink)
    seconds = time.perf_counter() - start
    code = os.waitstatus_to_exitcode(status)
    if code not in (0, 8):
        sys.exit(f'fizz show ended with {code}')
    return os.path.getsize(path), seconds, usage.ru_maxrss * 1024, code == 0


def series(title, sizes, page_of, unit):
    print(title)
    before = None
    for size in sizes:
        length, seconds, peak, is_done = show(page_of(size))
        if not is_done:
            print(f'{size:>7} {unit:<10} {length:>9} bytes, more than 8 GB')
            break
        more = '' if before is None else f'  power {math.log(seconds / before[1]) / math.log(size / before[0]):.2f}'
        if unit == 'MB':
            rate = escaping.get(size, escaping[10])
            more += f'  {seconds * rate * 1e6 / length:.1f} times escaping'
        print(f'{size:>7} {unit:<10} {length:>9} bytes {seconds:8.3f} s {length / seconds / 1e6:7.2f} MB/s'
              f' {peak / 1e6:6.0f} MB, {peak / length:5.1f} a byte{more}', flush=True)
        before = size, seconds


series('without scripts', (1, 10, 50), plain, 'MB')
series('late boundaries', (1_000, 10_000, 100_000), late, 'boundaries')
series('boundaries in one another, the innermost shown first', (1_000, 10_000), inside_out, 'boundaries')
series('segments, each put into the one before', (10_000, 40_000), segments, 'segments')
PY
