"""Answers are read by their grammar: what units say can't pass for a line of an answer, and what is no answer is told in a line, without a
traceback."""
import os
import signal
import subprocess
import sys
import time

from .bench import FLEET, E, U, same
from .told import FILES, HEADS, SERVICE


def looks_like_an_answer(bench):
    """Sections and keys that look like an answer's lines are values, in `show` as in `check` and `diff`."""
    place = f"{E}/a.service"
    texts = [
        ("note K1 /x:1", "a", "v"), (f"note K1 {place}:1", "a", "v:1"), ("note K5 Unit", "Description", "x"), ("dropin /x", "conf", "y.conf"),
        (f"dropin {E}/a.service", "d/x", "y.conf"), ("After: b.service", "k", "c"), ("unit x", "dropin", "/y"), ("end", "end", "end"),
        ("x=y", "k", "v.w=z"),
        ("names a", "b", ""), ("X", "note K1 /y:2", "z"),
    ]
    text = "".join(f"[{section}]\n{key}={value}\n" for section, key, value in texts)
    root = bench.tree("a", {place: SERVICE + text})
    lines = [f"{section}.{key}={value}" for section, key, value in texts if value]
    same(bench.fleet("show", root, "a").lines(), ["unit a.service", f"status loaded {place}", "names a.service", "Service.ExecStart=/x", *lines])
    found = bench.fleet("check", root, "a", *FILES, status=1).lines()
    same([it for it in found if "K1" in it and " is no " not in it or "K5" in it and " is no " not in it], [])
    same(len([it for it in found if " is no section" in it]), len(texts))
    again = bench.tree("b", {place: (SERVICE + text).replace("[note K1 /x:1]\na=v", "[note K1 /x:1]\na=w").replace("k=v.w=z", "k=w.w=z")})
    same(bench.fleet("diff", root, again, *FILES, status=1).lines(),
         [HEADS["files"], "a.service", "  - note K1 /x:1.a: v", "  + note K1 /x:1.a: w", "  - x=y.k: v.w=z", "  + x=y.k: w.w=z"])


def answering(bench, text):
    """A program that answers this to anything."""
    with open(bench.path("answers"), "wb") as file:
        file.write(text)
    with open(bench.path("odd"), "w", encoding="utf-8") as file:
        file.write(f'#!/bin/sh\ncat > /dev/null\ncat "{bench.path("answers")}"\n')
    os.chmod(bench.path("odd"), 0o755)
    return {"FLEET_SHELL": bench.path("odd")}


def what_is_no_answer(bench):
    """An answer that ends early or is another one is told by its first line, escaped and cut, with status 2."""
    root = bench.tree("a", {f"{U}/a.service": SERVICE})
    start, unit = b"ok\nok 1.1\n", f"unit a.service\nstatus loaded {U}/a.service\nnames a.service\n".encode()
    which = "which is no answer to what it was asked: is it fleet_shell, and of this repository?"
    for text, told in (
        (b"", "the program answered less than it was asked"),
        (b"\xff\x00\x1b[2J" + b"x" * 300 + b"\n", f"the program answered `\\xff\\x00\\x1b[2J{'x' * 105}..`, {which}"),
        (b"ok\nok 1.", "the program answered less than it was asked; it ends in `ok 1.`"), (b"ok\nhello\n", f"the program answered `hello`, {which}"),
        (start + unit, "the program answered less than it was asked: its answer has no `end`"),
        (start + b"hello\nend\n", f"the program answered `hello`, {which}"),
        (start + unit.replace(b"loaded", b"lost") + b"end\n", f"the program answered `status lost {U}/a.service`, {which}"),
        (start + unit.replace(b"/a.service", b"/b.service") + b"end\n", f"the program answered `status loaded {U}/b.service`, {which}"),
        (start + unit + b"no value\nend\n", f"the program answered `no value`, {which}"),
        (start + b"error: \nend\n", f"the program answered `error: `, {which}"),
        (start + unit + b"After: b.service\nBefore: c.service\nend\n", f"the program answered `After: b.service`, {which}"),
        (start + b"error: P6 Requisite x.service\n", f"the program answered `error: P6 Requisite x.service`, {which}"),
        (start + unit + b"end\nmore\n", f"the program answered `more`, {which}"),
    ):
        for verb in ("show", "check", "diff", "draw", "plan", "list"):
            words = {"check": [root], "diff": [root, root]}.get(verb, [root, "a"])
            if verb == "show" or b"unit" not in text and b"error" not in text and b"hello\nend" not in text:
                ran = bench.fleet(verb, *words, *FILES, status=2, env=answering(bench, text))
                same((ran.out, ran.told()[-1]), (b"", f"{verb}: {told}"))


def interrupted(bench):
    """An interrupt ends a run by its signal, without a word; a program that is no program is told."""
    root = bench.tree("a", {f"{U}/a.service": SERVICE})
    with open(bench.path("slow"), "w", encoding="utf-8") as file:
        file.write(f'#!/bin/sh\ntouch "{bench.path("begun")}"\nexec sleep 30\n')
    os.chmod(bench.path("slow"), 0o755)
    around = {**os.environ, "FLEET_SHELL": bench.path("slow")}
    with subprocess.Popen([sys.executable, FLEET, "check", root], env=around, stdout=subprocess.PIPE, stderr=subprocess.PIPE,
        start_new_session=True) as ran:
        while not os.path.exists(bench.path("begun")):
            time.sleep(0.1)
        os.killpg(ran.pid, signal.SIGINT)
        same((*ran.communicate(timeout=60), ran.returncode), (b"", b"", -signal.SIGINT))
    ran = bench.fleet("show", root, "a", status=2, env={"FLEET_SHELL": f"{root}{U}/a.service"})
    same(ran.told(), [f"show: FLEET_SHELL={root}{U}/a.service: no file that can be run"])


CASES = [looks_like_an_answer, what_is_no_answer, interrupted]
