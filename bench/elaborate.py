"""Times the reading of long texts by two simulators. `elaborate.sh` says how it is called and what is run."""

import os
import re
import subprocess
import sys
import tempfile
import time

HERE = os.path.dirname(os.path.abspath(__file__))
SECONDS = 120  # what a run may take


def numbered(letter, count):
    """Returns so many names."""
    return [f"{letter}{i:x}" for i in range(count)]


def design(declarations, statements, before=""):
    """Returns a text whose top is `top`."""
    return f"{before}entity top is end;\narchitecture a of top is\n{declarations}begin\n{statements}end;\n"


def lines(parts, width=10):
    """Returns a list with commas, so many parts in a line."""
    rows = [", ".join(parts[i : i + width]) for i in range(0, len(parts), width)]
    return ",\n".join(rows)


def constants(size):
    return design("".join(f"constant {name} : real := 1.0;\n" for name in numbered("c", size // 27)), "")


def signals(size):
    return design("".join(f"signal {name} : bit;\n" for name in numbered("s", size // 20)), "")


def chained_constants(size):
    """Each is the sum of the one before and another."""
    names = numbered("c", size // 38)
    later = "".join(f"constant {name} : integer := {last} mod 7;\n" for last, name in zip(names, names[1:]))
    return design(f"constant {names[0]} : integer := 1;\n" + later, "")


def literals(size):
    """As many literals as one type may have, and the rest in others."""
    names = numbered("l", size // 9)
    types = [names[i : i + 65536] for i in range(0, len(names), 65536)]
    return design("".join(f"type t{i} is (\n{lines(some)});\n" for i, some in enumerate(types)), "")


def types(size):
    return design("".join(f"type t{i:x} is (l{i:x});\n" for i in range(min(65_000, size // 24))), "")


def expressions(size):
    """Constants with as many operators as an expression may have."""
    row = " + ".join(["1"] * 250)
    return design("".join(f"constant {name} : integer := {row};\n" for name in numbered("c", size // 1030)), "")


def deep_expressions(size):
    """As many parentheses as may stand inside one another."""
    row = "(" * 60 + "1" + ")" * 60
    return design("".join(f"constant {name} : integer := {row};\n" for name in numbered("c", size // 152)), "")


def instances(size):
    """As many instances as a design may have, with as many generics as the text has room for."""
    generics = max(1, (size - 20_000) // (12 * 255 + 24))
    names = numbered("g", generics)
    actual = lines([f"{name} => 1.5" for name in names])
    entity = f"entity e is generic ({'; '.join(f'{name} : real := 0.0' for name in names)}); end;\narchitecture a of e is begin end;\n"
    return design("", "".join(f"i{i} : entity work.e generic map (\n{actual});\n" for i in range(255)), entity)


def many_instances(size):
    """More instances than a design may have."""
    return design("", "".join(f"u{i:x} : entity work.e;\n" for i in range(size // 26)), "entity e is end;\narchitecture a of e is begin end;\n")


def big_entity(size):
    """As many instances as a design may have of an entity with constants."""
    inner = "".join(f"constant {name} : real := 1.0;\n" for name in numbered("c", (size - 8_000) // 27))
    return design("", "".join(f"i{i} : entity work.e;\n" for i in range(255)), f"entity e is end;\narchitecture a of e is\n{inner}begin end;\n")


def typed_instances(size):
    """As many instances as a design may have of an entity with a type of many literals."""
    inner = f"type t is (\n{lines(numbered('l', min(65_000, (size - 8_000) // 9)))});\n"
    return design("", "".join(f"i{i} : entity work.e;\n" for i in range(255)), f"entity e is end;\narchitecture a of e is\n{inner}begin end;\n")


def sensitivity(size):
    """A process that waits on each of many signals."""
    names = numbered("s", size // 17)
    return design(f"signal {lines(names)} : bit;\n", f"process begin\nwait on {lines(names)};\nend process;\n")


def drivers(size):
    """A process that assigns many signals."""
    names = numbered("s", size // 24)
    return design(f"signal {lines(names)} : bit;\n", "process begin\n" + "".join(f"{name} <= '0';\n" for name in names) + "wait; end process;\n")


def integer_choices(size):
    """A case with many values."""
    choices = "\n| ".join(str(i) for i in range(size // 9))
    return design("signal s : integer;\n", f"process begin\ncase s is when {choices} => null; when others => null; end case;\nwait; end process;\n")


def literal_choices(size):
    """A case with an alternative for each literal of a type."""
    names = numbered("l", min(65_000, size // 34))
    arms = "".join(f"when {name} => null;\n" for name in names)
    return design(f"type t is (\n{lines(names)});\nsignal s : t;\n", f"process begin\ncase s is\n{arms}end case;\nwait; end process;\n")


def selectors(size):
    """A break with many elements beside equations with many dots."""
    row = " + ".join(["x'dot"] * 200)
    equations = f"x ==\n{row};\n" * (size // 2 // 1610)
    return design("quantity x, y : real;\n", f"{equations}y'dot == 0.0;\nbreak {lines(['y => 1.0'] * (size // 2 // 10))};\n")


def equations(size):
    """As many signals as a design may have, beside many equations."""
    names = numbered("s", 1024)
    return design(f"signal {lines(names)} : real;\nquantity x, y : real;\n", "x == y;\n" * ((size - 8_000) // 8))


def processes(size):
    return design("signal s : bit;\n", "process begin wait on s; end process;\n" * (size // 38))


def statements(size):
    return design("", "process\nvariable v : integer;\nbegin\n" + "v := v + 1;\n" * (size // 12) + "wait; end process;\n")


def entities(size):
    return "".join(f"entity {name} is end;\n" for name in numbered("e", size // 22)) + design("", "")


def architectures(size):
    """Many architectures that have an instance of an entity with many generics."""
    count = size // 2 // 28
    entity = "entity e is generic (" + ";\n".join(f"{name} : real := 0.0" for name in numbered("g", count)) + "); end;\narchitecture a of e is begin end;\n"
    bodies = "".join(f"architecture {name} of w is begin i : entity work.e; end;\n" for name in numbered("b", size // 2 // 58))
    return f"{entity}entity w is end;\n{bodies}" + design("", "")


def own_ports(size):
    """Many architectures of an entity with many ports."""
    entity = f"entity w is port (\n{lines(numbered('p', size // 2 // 8))} : bit); end;\n"
    bodies = "".join(f"architecture {name} of w is begin end;\n" for name in numbered("b", size // 2 // 37))
    return entity + bodies + design("", "")


def faults(size):
    """Each statement breaks a rule."""
    return design("", "x == y;\n" * (size // 8))


WORKS = [
    constants, signals, chained_constants, literals, types, expressions, deep_expressions, instances, many_instances, big_entity,
    typed_instances, sensitivity, drivers, integer_choices, literal_choices, selectors, equations, processes, statements, entities,
    architectures, own_ports, faults,
]  # fmt: skip


def fitting(work, size):
    """Returns the text of a work, of at most so many bytes."""
    asked = size
    while len(text := work(asked)) > size:
        asked = asked * size // len(text) - 50
    return text


def ran(program, text):
    """Returns the processor seconds, the status and the first note of a run that ends before its second step."""
    begun = time.monotonic()
    words = ["--mode", "lockstep", "--top", "top", "--stop", "1"]
    with tempfile.TemporaryFile() as design_text, tempfile.TemporaryFile() as notes:
        design_text.write(text.encode("ascii"))
        design_text.seek(0)
        child = subprocess.Popen([*program, *words], stdin=design_text, stdout=subprocess.DEVNULL, stderr=notes)
        while True:
            done, status, used = os.wait4(child.pid, os.WNOHANG)
            if done:
                break
            if time.monotonic() - begun > SECONDS:
                child.kill()
                os.wait4(child.pid, 0)
                return SECONDS, "cut off", b""
            time.sleep(0.001)
        child.returncode = status
        notes.seek(0)
        return used.ru_utime + used.ru_stime, os.waitstatus_to_exitcode(status), notes.read(200)


def measure(own, other, sizes, chosen):
    """Prints the lines of each work, and returns whether both programs answer the same."""
    same = True
    print(f"{'':20} {'bytes':>9} {'ours':>9} {'other':>9} {'ratio':>7}  status")
    for work in WORKS:
        if not re.search(chosen, work.__name__):
            continue
        for size in sizes:
            text = fitting(work, size)
            (own_time, own_status, own_note), (other_time, other_status, other_note) = (ran(it, text) for it in (own, other))
            alike = (own_status, own_note) == (other_status, other_note)
            same = same and alike
            print(
                f"{work.__name__:20} {len(text):9} {own_time:7.3f} s {other_time:7.3f} s {own_time / max(other_time, 0.001):7.2f}  {own_status}"
                f"{'' if alike else f'   OTHERWISE: {own_note!r}, {other_status} {other_note!r}'}",
                flush=True,
            )
    return same


def main():
    own = os.environ.get("OWN", f"{HERE}/../crates/ams_run/out/ams_run").split()
    sizes = [int(size) for size in os.environ.get("SIZES", "250000 500000 1000000").split()]
    return 0 if measure(own, sys.argv[1:], sizes, os.environ.get("WORKS", "")) else 1


if __name__ == "__main__":
    sys.exit(main())
