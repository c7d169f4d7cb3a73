"""Runs a simulator over tables of cases and compares what it writes, to the byte. `cases.sh` says how it is called and what the tables are."""

import argparse
import collections
import concurrent.futures
import json
import os
import re
import subprocess
import sys

TABLES = ["refusals", "elaborated", "traces", "words", "replay", "threads"]
MODES = ["lockstep", "make", "replay", "run"]
Case = collections.namedtuple("Case", "table number about text words judge")
Ran = collections.namedtuple("Ran", "status trace notes")


def run(program, words, text):
    """Runs the program on a text, and returns its status and what it wrote."""
    try:
        ran = subprocess.run([*program, *words], input=text, capture_output=True, timeout=120)
    except subprocess.TimeoutExpired as late:
        return Ran("none within 120 s", late.stdout or b"", late.stderr or b"")
    return Ran(ran.returncode, ran.stdout, ran.stderr)


def shown(data):
    """Returns the head of some bytes, for a reader."""
    return repr(data.decode("latin-1")[:160])


def difference(name, got, wanted):
    """Returns what tells two texts apart: the first line that differs."""
    got_lines, wanted_lines = got.splitlines(True), wanted.splitlines(True)
    for number, pair in enumerate(zip(got_lines + [b""], wanted_lines + [b""]), 1):
        if pair[0] != pair[1]:
            return f"{name}, line {number}: {shown(pair[0])}, wanted {shown(pair[1])}"
    return f"{name}: {len(got_lines)} lines, wanted {len(wanted_lines)}"


def exactly(status, trace, notes):
    """Returns a judge: the status, the whole trace and the whole notes."""

    def judge(ran):
        found = []
        if ran.status != status:
            found.append(f"status {ran.status}, wanted {status}")
        if ran.trace != trace:
            found.append(difference("trace", ran.trace, trace))
        if ran.notes != notes:
            found.append(difference("notes", ran.notes, notes))
        return found

    return judge


def fits(status, trace):
    """Returns a judge of a run on threads: the status, the whole trace, and a note whose numbers go together."""

    def judge(ran):
        found = exactly(status, trace, ran.notes)(ran)
        note = re.fullmatch(rb"ahead begins (\d+) taken (\d+) saved (\d+) stale (\d+) reused (\d+) own (\d+)\n", ran.notes)
        if not note:
            return found + [f"notes {shown(ran.notes)}, wanted a report"]
        _, taken, saved, stale, reused, _ = map(int, note.groups())
        if reused > saved or saved + stale > taken:
            found.append(f"notes {shown(ran.notes)}, numbers that can't be")
        return found

    return judge


def begins(head):
    """Returns a judge of an accepted design: the trace begins with the head, and there is no note."""

    def judge(ran):
        found = []
        if ran.status not in (0, 3):
            found.append(f"status {ran.status}, wanted 0 or 3")
        if not ran.trace.startswith(head):
            found.append(difference("head", b"".join(ran.trace.splitlines(True)[: len(head.splitlines())]), head))
        if ran.notes:
            found.append(f"notes {shown(ran.notes)}, wanted none")
        return found

    return judge


def accepted(ran):
    """Judges words that are accepted; the case says nothing on the run."""
    return [f"status 2, notes {shown(ran.notes)}, wanted no usage"] if ran.status == 2 or b"usage" in ran.notes else []


def case_of(table, number, row):
    """Returns the case of a row. In a text each character is one byte; a word is itself."""
    about, text = row.get("about", ""), row.get("text", "").encode("latin-1")
    words = row.get("words") or ["--mode", "lockstep", "--top", row.get("top", ""), "--stop", "1"]
    if table == "refusals":
        judge = exactly(1, b"", row["note"].encode("latin-1") + b"\n")
    elif table == "elaborated":
        judge = begins(row["head"].encode("latin-1"))
    elif table == "words":
        words, answer = row["words"], row["answer"]
        judge = accepted if answer == "ok" else exactly(2, b"", f"usage {answer}\n".encode())
    elif table == "threads":
        words, judge = in_mode_run(row["words"]), fits(row["status"], row["trace"].encode("latin-1"))
    else:
        judge = exactly(row["status"], row["trace"].encode("latin-1"), row["notes"].encode("latin-1"))
    return Case(table, number, about, text, words, judge)


def in_mode_run(words):
    """Returns the words with mode run in place of lockstep."""
    return ["run" if word == "lockstep" and before == "--mode" else word for before, word in zip(["", *words], words)]


def modes_of(words):
    """Returns the modes that the words ask for."""
    asked = {after for word, after in zip(words, words[1:]) if word == "--mode"}
    return asked | {word[len("--mode=") :] for word in words if word.startswith("--mode=")}


def cases_of(folder, tables):
    """Yields the cases of the tables, in order."""
    for table in tables:
        name = "traces" if table == "threads" else table
        with open(os.path.join(folder, f"{name}.jsonl"), encoding="utf-8") as rows:
            for number, line in enumerate(rows, 1):
                row = json.loads(line)
                if table != "threads" or "lockstep" in row["words"] and row["status"] in (0, 3):
                    yield case_of(table, number, row)


def report(case, found):
    print(f"{case.table} {case.number} ({case.about}): {'; '.join(found)}")
    print(f"    words {' '.join(case.words)}")
    print(f"    text {case.text.decode('latin-1')[:400]!r}")


def arguments():
    parser = argparse.ArgumentParser(description=__doc__)
    parser.add_argument("folder", help="the folder with the tables")
    parser.add_argument("program", nargs="+", help="the simulator and its first words")
    parser.add_argument("--tables", default=",".join(TABLES), help="the tables to run")
    parser.add_argument("--about", default="", help="run only rows whose `about` matches this pattern")
    parser.add_argument("--first", type=int, default=10, help="so many differences are shown (10)")
    return parser.parse_args()


def main():
    asked = arguments()
    lacking = {mode for mode in MODES if run(asked.program, ["--mode", mode], b"").notes != b"usage 0\n"}
    counts = {table: collections.Counter() for table in asked.tables.split(",")}
    wrong = 0

    def judged(case):
        if modes_of(case.words) & lacking:
            return case, None
        return case, case.judge(run(asked.program, case.words, case.text))

    chosen = (case for case in cases_of(asked.folder, counts) if re.search(asked.about, case.about))
    with concurrent.futures.ThreadPoolExecutor(os.cpu_count()) as pool:
        for case, found in pool.map(judged, chosen):
            counts[case.table]["left out" if found is None else "differ" if found else "agree"] += 1
            if found:
                wrong += 1
                if wrong <= asked.first:
                    report(case, found)
    for table, count in counts.items():
        print(f"{table}: {count['agree']} agree, {count['differ']} differ, {count['left out']} left out")
    if lacking:
        print(f"left out are the rows of modes that the program doesn't have: {', '.join(sorted(lacking))}")
    return 1 if wrong else 0


sys.exit(main())
