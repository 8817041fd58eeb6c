"""The lines of programs that work calls, with the answers that they must have."""
import os

from programs import ROOT


def read_data(program, file):
    """The bytes of a file of a program's data."""
    with open(os.path.join(ROOT, "crates", program, file), "rb") as source:
        return source.read()


def is_passed_over(line):
    """Whether a line is only repeated."""
    return not line.strip(b" ") or line.startswith(b"#")


def calls_of(program):
    """The lines of a program's data that are calls."""
    lines = read_data(program, "stdin").split(b"\n")
    return [line for line in lines if not is_passed_over(line)]


def answers_behind(program):
    """Each call of a program's data with what it must answer, which stands behind it on its line."""
    told = read_data(program, "stdout").split(b"\n")
    asked = read_data(program, "stdin").split(b"\n")
    if len(asked) != len(told):
        raise ValueError(f"{program}: {len(asked)} lines and {len(told)} answers")
    for line, whole in zip(asked, told):
        if not is_passed_over(line):
            yield line, whole[len(line + b" -> ") :]


def answers_below(program):
    """Each call of a program's data with the lines that it must answer, which stand below it, two spaces in front."""
    calls = calls_of(program)
    found, place = [], 0
    for line in read_data(program, "stdout").split(b"\n"):
        if line.startswith(b"  ") and found:
            found[-1][1].append(line[2:])
        elif place < len(calls) and line == calls[place]:
            found.append((line, []))
            place += 1
    return found


def is_silent(run):
    """Whether a program that was refused memory for its own input or output ended without an answer."""
    return run.refusals > 0 and run.status in (1, 2) and run.answers == b""


def name_of(line):
    """A short name of a line."""
    return line[:70].decode("latin-1")
