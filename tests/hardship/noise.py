"""Scripts of random and of half-valid bytes: each ends with status 0 and an answer for each line that asks for one."""
import random
import re

from cases import Case
from scripts import PROGRAM

SEED = 252
SCRIPTS = 1_000
EACH_CASE = 25

NODES = [b"a", b"b", b"c", b"", b"a" * 33, b"a-b"]
HOSTS = [b"web1", b"web2", b"w" * 64, b"we_b", b"", b"web1@x"]
NUMBERS = [b"0", b"1", b"2", b"7", b"64", b"65", b"4294967295", b"4294967296", b"00000000001", b"x"]
NAMES = [b"a.service", b"b.service", b"t.target", b"g@.service", b"g@x.service", b"a.servic", b".service", b"a b"]
FOLDERS = [b"", b"a.service.d/", b"t.target.wants/", b"g@.service.d/", b"service.d/", b"x/y/", b"../"]
DIRECTORIES = [b"/etc/systemd/system/", b"/usr/lib/systemd/system/", b"/run/systemd/system/", b"/opt/"]
TEXTS = [
    rb"[Unit]\n",
    rb"[Unit]\nWants=b.service g@x.service\n",
    rb"[Unit]\nRequires=b.service\nAfter=b.service\n",
    rb"[Unit]\nConflicts=b.service\n[Service]\nExecStart=\xff\n",
    rb"[Unit\nx\n=\n[Unit]\nDescription=%i %z %\n",
    rb"\q",
    rb"\x4",
    b"",
    b"  spaces  ",
]


def path(dice):
    """A path that is often lawful."""
    return dice.choice(DIRECTORIES) + dice.choice(FOLDERS) + dice.choice(NAMES)


def place(dice):
    """A place, every other one of a host."""
    return path(dice) if dice.random() < 0.5 else dice.choice(HOSTS) + b":" + path(dice)


def asked(dice):
    """A node, every other time with a host."""
    return dice.choice(NODES) if dice.random() < 0.5 else dice.choice(NODES) + b"@" + dice.choice(HOSTS)


COMMANDS = {
    b"node": lambda dice: [dice.choice(NODES), dice.choice(NUMBERS)],
    b"put": lambda dice: [dice.choice(NODES), place(dice), dice.choice(TEXTS)],
    b"link": lambda dice: [dice.choice(NODES), place(dice), dice.choice([b"/dev/null", b"b.service", path(dice)])],
    b"remove": lambda dice: [dice.choice(NODES), place(dice)],
    b"merge": lambda dice: [dice.choice(NODES), dice.choice(NODES)],
    b"part": lambda dice: [dice.choice([b"p", b"q"]), b"a", b"b", *(place(dice) for _ in range(dice.randrange(3)))],
    b"send": lambda dice: [dice.choice([b"p", b"q", b"r"]), dice.choice(NODES)],
    b"sweep": lambda dice: [],
    b"files": lambda dice: [dice.choice(NODES)],
    b"text": lambda dice: [dice.choice(NODES), place(dice)],
    b"cat": lambda dice: [asked(dice), dice.choice(NAMES)],
    b"show": lambda dice: [asked(dice), dice.choice(NAMES)],
    b"list": lambda dice: [asked(dice), dice.choice(NAMES)],
    b"units": lambda dice: [asked(dice)],
    b"tree": lambda dice: [asked(dice)],
    b"plan": lambda dice: [asked(dice), *(dice.choice(NAMES) for _ in range(dice.randrange(3)))],
    b"workers": lambda dice: [dice.choice(NUMBERS[:6])],
    b"same": lambda dice: [dice.choice(NODES), dice.choice(NODES)],
    b"crowd": lambda dice: [dice.choice(NODES), dice.choice(NUMBERS[:3]), dice.choice(NUMBERS[:3])],
}

# The whole answers of a command that is not refused.
VERSION = rb"ok \d+\.\d+\n"
BLOCK = rb"(?s:(.*\n)?)end\n"
ANSWERS = {
    b"node": rb"ok\n",
    b"put": VERSION,
    b"link": VERSION,
    b"remove": VERSION,
    b"merge": rb"changed \d+\n",
    b"part": rb"entries \d+\n",
    b"send": rb"changed \d+\n",
    b"sweep": rb"ok\n",
    b"files": BLOCK,
    b"text": BLOCK,
    b"cat": BLOCK,
    b"show": BLOCK,
    b"list": BLOCK,
    b"units": BLOCK,
    b"tree": BLOCK,
    b"plan": BLOCK,
    b"workers": rb"ok\n",
    b"same": rb"(same|differ)\n",
    b"crowd": rb"takes \d+ paths \d+\n",
}
REFUSAL = rb"error: [A-Z]\d+ [A-Za-z0-9]+( .*)?\n"


def half_valid(dice):
    """A line that is a command, or nearly one."""
    command = dice.choice(list(COMMANDS))
    line = b" ".join([command, *COMMANDS[command](dice)])
    return spoilt(dice, line) if dice.random() < 0.3 else line


def spoilt(dice, line):
    """A line at one byte of which something is put in, left out, or changed."""
    place = dice.randrange(len(line) + 1)
    byte = bytes([dice.randrange(256)])
    put_in, left_out = line[:place] + byte + line[place:], line[:place] + line[place + 1 :]
    changed = line[:place] + byte + line[place + 1 :]
    return dice.choice([put_in, left_out, changed, line + b"\r", b"  " + line, b"#" + line, line[:place]])


def random_bytes(dice):
    """Any bytes; line feeds are more common among them than others."""
    return bytes(dice.choice([10, 32, dice.randrange(256)]) for _ in range(dice.randrange(120)))


def script_of(number):
    """The script of a number: every fourth is of random bytes, the others are of half-valid lines behind two nodes."""
    dice = random.Random(SEED * SCRIPTS + number)
    if number % 4 == 0:
        return random_bytes(dice)
    lines = [b"node a 1", b"node b 2", *(half_valid(dice) for _ in range(dice.randrange(4, 16)))]
    return b"\n".join(lines) + dice.choice([b"", b"\n", b"\r\n"])


def lines_of(script):
    """The lines of a script, each with its end."""
    return re.findall(rb"[^\n]*\n|[^\n]+\Z", script)


def bare(line):
    """A line without its end: a line feed, and one carriage return before it."""
    if not line.endswith(b"\n"):
        return line
    return line[:-2] if line.endswith(b"\r\n") else line[:-1]


def asks(line):
    """Whether a line asks for an answer."""
    return line.strip(b" ") != b"" and not line.startswith(b"#")


def is_answer(line, said):
    """Whether these bytes are an answer to a line."""
    words = line.split()
    wanted = ANSWERS.get(words[0] if words else b"", rb"(?!)")
    return bool(re.fullmatch(REFUSAL, said) or re.fullmatch(wanted, said))


def answers_to(bench, tally, number, script):
    """What is answered to a script, which must end well; None where it didn't."""
    run = bench.run(PROGRAM, script)
    tally.note(run)
    if run.status == 0 and run.words == b"":
        return run.answers
    tally.wrong(f"script {number}", f"status {run.status}, {run.words!r}")
    return None


def one_script(bench, tally, number):
    """Each front of a script is answered as the one before it, and by one answer more where its last line asks."""
    before, script = b"", b""
    for line in lines_of(script_of(number)):
        script += line
        answers = answers_to(bench, tally, number, script)
        if answers is None:
            return
        said = answers[len(before) :]
        is_fine = is_answer(bare(line), said) if asks(bare(line)) else said == b""
        if not (answers.startswith(before) and is_fine):
            tally.wrong(f"script {number}", f"{line!r} is answered by {said[:80]!r}")
        before = answers


def some_scripts(bench, tally, first):
    """Scripts of a row of numbers."""
    for number in range(first, first + EACH_CASE):
        one_script(bench, tally, number)


def cases():
    """All scripts, some in each case."""
    for first in range(0, SCRIPTS, EACH_CASE):
        name = f"seed {SEED}, scripts {first} to {first + EACH_CASE - 1}"
        yield Case("random and half-valid scripts", name, some_scripts, (first,), weight=300)
