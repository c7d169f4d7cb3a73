"""Times runs in mode run beside the same runs in mode lockstep, by the clock. `ahead.sh` says how it is called and what is run."""

import os
import re
import subprocess
import sys
import tempfile
import time

HERE = os.path.dirname(os.path.abspath(__file__))
STEPS = "--stop 250000000 --h0 5000 --hmin 5000 --hmax 5000"  # 50,000 steps of 5 ns


def ladder(sections, process):
    """Returns a ladder of resistors and capacitors beside a process."""
    stages = range(1, sections + 1)
    lines = ["entity ladder is end;", "architecture made of ladder is", "signal count : integer := 0;", "signal clk : bit;", "signal lev : real := 0.0;"]
    lines += ["terminal n0 : electrical;", "quantity v0 across j0 through n0;"]
    for k in stages:
        lines += [f"terminal n{k} : electrical;", f"quantity vr{k} across ir{k} through n{k - 1} to n{k};", f"quantity vc{k} across ic{k} through n{k};"]
    lines += ["begin", "v0 == lev;"]
    for k in stages:
        lines += [f"vr{k} == 1.0e3 * ir{k};", f"ic{k} == 1.0e-9 * vc{k}'dot;"]
    return "\n".join([*lines, *process, "break on lev;", "end;", ""])


def alone():
    """Returns a process that changes the ladder's source each 500 ns, and does nothing else."""
    return ["process begin", "wait for 500 ns; clk <= not clk; wait on clk;", "if clk = '1' then lev <= 5.0; else lev <= 0.0; end if;", "end process;"]


def computing(turns):
    """Returns that process, and one that computes at each step."""
    return [
        *alone(),
        "process",
        "variable sum : integer := 0;",
        "begin",
        f"for k in 1 to {turns} loop sum := (sum + k) mod 1000; end loop;",
        "count <= sum;",
        "wait for 5 ns;",
        "end process;",
    ]


def works():
    """Yields each work: its name and its text."""
    yield "ladder", ladder(15, alone())
    for turns in (5, 10, 20, 40, 80):
        yield f"both kernels, {turns} turns", ladder(8, computing(turns))


def elapsed(program, words, text):
    """Returns the seconds of the clock that a run takes, and its trace's size and status."""
    text.seek(0)
    began = time.monotonic()
    ran = subprocess.run([*program, *words], stdin=text, stdout=subprocess.DEVNULL, stderr=subprocess.DEVNULL)
    return time.monotonic() - began, ran.returncode


def main():
    program = sys.argv[1:] or [f"{HERE}/../crates/ams_run/out/ams_run"]
    rounds, chosen = int(os.environ.get("ROUNDS", "3")), os.environ.get("WORKS", "")
    print(f"{'':26} {'run':>9} {'lockstep':>9} {'ratio':>6}")
    for name, design in works():
        if not re.search(chosen, name):
            continue
        words = f"--top ladder {STEPS}".split()
        with tempfile.TemporaryFile() as text:
            text.write(design.encode("ascii"))
            text.flush()
            times = {mode: [] for mode in ("run", "lockstep")}
            for _ in range(rounds):
                for mode, seconds in times.items():
                    spent, status = elapsed(program, ["--mode", mode, *words], text)
                    assert status in (0, 3), f"status {status}"
                    seconds.append(spent)
        ahead, step = min(times["run"]), min(times["lockstep"])
        print(f"{name:26} {ahead:7.3f} s {step:7.3f} s {ahead / step:6.2f}", flush=True)


main()
