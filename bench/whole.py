"""Times whole runs of two simulators. `whole.sh` says how it is called and what is run."""

import glob
import hashlib
import os
import re
import subprocess
import sys
import tempfile

HERE = os.path.dirname(os.path.abspath(__file__))
LADDER_SECTIONS = 15
LADDER_STEPS = "--stop 500000000 --h0 5000 --hmin 5000 --hmax 5000"  # 100,000 steps of 5 ns
CLOCK = "--mode lockstep --top clock --stop 199998000"  # 199,999 cycles: the greatest number is 200,000
IDLE_PROCESSES = 200


def ladder(sections):
    """Returns the text of the generated ladder."""
    stages = range(1, sections + 1)
    lines = ["entity ladder is end;", "architecture made of ladder is", "signal clk : bit;", "signal lev : real := 0.0;"]
    lines += ["terminal n0 : electrical;", "quantity v0 across j0 through n0;"]
    for k in stages:
        lines += [f"terminal n{k} : electrical;", f"quantity vr{k} across ir{k} through n{k - 1} to n{k};", f"quantity vc{k} across ic{k} through n{k};"]
    lines += ["begin", "v0 == lev;"]
    for k in stages:
        lines += [f"vr{k} == 1.0e3 * ir{k};", f"ic{k} == 1.0e-9 * vc{k}'dot;"]
    lines += ["process begin", "wait for 500 ns; clk <= not clk; wait on clk;", "if clk = '1' then lev <= 5.0; else lev <= 0.0; end if;"]
    return "\n".join([*lines, "end process;", "break on lev;", "end;", ""])


def clock(idle):
    """Returns a design with a clock of 2 ns and so many processes that never run again."""
    waiting = "process begin wait on other; end process;\n" * idle
    return f"entity clock is end;\narchitecture a of clock is\nsignal c, other : bit;\nbegin\nc <= not c after 1 ns;\n{waiting}end;\n"


def works():
    """Yields each work: its name, its words, its text and how often it is run in one measurement."""
    yield "ladder, made", f"--mode make --size {LADDER_SECTIONS} {LADDER_STEPS}", "", 1
    yield "ladder, read", f"--mode lockstep --top ladder {LADDER_STEPS}", ladder(LADDER_SECTIONS), 1
    yield "clock", CLOCK, clock(0), 1
    yield "clock, idle processes", CLOCK, clock(IDLE_PROCESSES), 1
    for file in sorted(glob.glob(f"{HERE}/../examples/*.vhd")):
        with open(file, encoding="ascii") as text:
            design = text.read()
        words = re.search(r"^-- Run: ams_run (.*)$", design, re.M).group(1)
        yield os.path.basename(file), f"--mode lockstep {words}", design, 20


def spent(program, words, text, times):
    """Returns the processor seconds of so many runs."""
    seconds = 0.0
    for _ in range(times):
        text.seek(0)
        ran = subprocess.Popen([*program, *words], stdin=text, stdout=subprocess.DEVNULL, stderr=subprocess.DEVNULL)
        _, ran.returncode, used = os.wait4(ran.pid, 0)
        seconds += used.ru_utime + used.ru_stime
    return seconds


def written(program, words, text):
    """Returns a sum of the trace with the status, and the most memory that the run took, in MB."""
    text.seek(0)
    # Python's own children begin with its memory in their count, so a small program starts this one.
    with tempfile.NamedTemporaryFile("r") as kilobytes:
        line = ["/usr/bin/time", "-q", "-f", "%M", "-o", kilobytes.name, *program, *words]
        ran = subprocess.Popen(line, stdin=text, stdout=subprocess.PIPE, stderr=subprocess.DEVNULL)
        trace = hashlib.sha256()
        while block := ran.stdout.read(1 << 16):
            trace.update(block)
        return (trace.hexdigest(), ran.wait()), int(kilobytes.read()) / 1024


def measure(own, other, rounds, chosen):
    """Prints the line of each work, and returns whether all traces are the same."""
    same = True
    print(f"{'':24} {'ours':>9} {'other':>9} {'ratio':>6}   {'ours':>8} {'other':>8} {'ratio':>6}")
    for name, line, design, times in works():
        if not re.search(chosen, name):
            continue
        words = line.split()
        with tempfile.TemporaryFile() as text:
            text.write(design.encode("ascii"))
            text.flush()
            (own_trace, own_memory), (other_trace, other_memory) = (written(it, words, text) for it in (own, other))
            pairs = [(spent(own, words, text, times), spent(other, words, text, times)) for _ in range(rounds)]
        own_time, other_time = (min(pair[place] for pair in pairs) / times for place in (0, 1))
        same = same and own_trace == other_trace
        print(
            f"{name:24} {own_time:7.4f} s {other_time:7.4f} s {own_time / max(other_time, 1e-6):6.2f}   "
            f"{own_memory:5.1f} MB {other_memory:5.1f} MB {own_memory / other_memory:6.2f}"
            f"{'' if own_trace == other_trace else '   ANOTHER TRACE'}",
            flush=True,
        )
    return same


def main():
    own = os.environ.get("OWN", f"{HERE}/../crates/ams_run/out/ams_run").split()
    rounds, chosen = int(os.environ.get("ROUNDS", "3")), os.environ.get("WORKS", "")
    return 0 if measure(own, sys.argv[1:], rounds, chosen) else 1


sys.exit(main())
