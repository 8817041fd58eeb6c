"""The program that answers scripts: the proved one, or, where that is asked for, the same text run without proofs."""
import os
import shutil
import subprocess
import tempfile
from dataclasses import dataclass
from typing import Tuple

from . import reports
from .answers import text_of, wrong
from .faults import Fault, cut, printable
from .scripts import script_of

REPOSITORY = os.path.dirname(os.path.dirname(os.path.dirname(os.path.realpath(__file__))))
CRATE = os.path.join(REPOSITORY, "crates", "fleet_shell")
# Where it stands: of a package, and as the repository builds it.
PLACES = (os.path.join(REPOSITORY, "bin", "fleet_shell"), os.path.join(CRATE, "out", "fleet_shell"))

PIECE = 65_536  # bytes that are read at once
# How long a run without proofs may take.
MOST_SECONDS = "3600"

HOW_TO_BUILD = f"""the proved program isn't built. Either of these builds it, with Rattle's `rt` on the path:
  (cd {CRATE} && rt run < /dev/null)    proves it and all below it, compiles it and runs it: an hour or more, once
  (cd {REPOSITORY} && rt ci)    the same and all tests
FLEET_SHELL=FILE names one that stands elsewhere. With --unproved the same program is run without proofs, in some minutes for each call."""

# The status with which `rt try` ends where the program gave no answer, and what is to be done then.
NO_ANSWER = 6
INSTEAD = "it gives no answers of over 1 MiB, nor after an hour: build the program and leave --unproved out, or ask of one unit"


@dataclass(frozen=True)
class Program:
    """How the program is run."""

    words: Tuple[str, ...]
    folder: str
    is_proved: bool

    def answer(self, lines, tell=lambda ended: None):
        """What it answers to a script of these lines. Meanwhile `tell` is given about how many of its longer answers have ended."""
        if not self.is_proved:
            reports.tell("asking the unproved program by `rt try`, which takes some minutes")
        with tempfile.TemporaryFile() as script, tempfile.TemporaryFile() as words:
            script.write(script_of(lines))
            script.seek(0)
            try:
                ran = subprocess.Popen(self.words, stdin=script, stdout=subprocess.PIPE, stderr=words, cwd=self.folder)
            except OSError as fault:
                raise Fault(f"{printable(self.words[0])}: it can't be run: {fault.strerror}") from fault
            with ran:
                found = answers_of(ran, tell)
            if ran.returncode:
                words.seek(0)
                raise self.failed(ran.returncode, text_of(words.read()))
        return found

    def failed(self, status, told):
        """The fault where it ended with a status other than 0, having told this."""
        lines = [it for it in told.split("\n") if it.strip()]
        if not self.is_proved and status == NO_ANSWER:
            return Fault(f"`rt try` has no answer: {INSTEAD}{''.join(f' ({cut(it)})' for it in lines if it.startswith('checked: no-answer: '))}")
        why = f"signal {-status}" if status < 0 else f"status {status}"
        return Fault(f"{printable(' '.join(self.words))} ended with {why}{''.join(f': {cut(it)}' for it in lines[:1])}")


def answers_of(ran, tell):
    """All bytes that a program answers; after each piece it is told about how many answers have ended. One whose first line can't be an answer
    isn't heard any further."""
    parts, ended, is_heard = [], 0, False
    try:
        for part in iter(lambda: ran.stdout.read1(PIECE), b""):
            parts.append(part)
            if not is_heard:
                head = b"".join(parts)
                is_heard = b"\n" in head
                refuse_other(head)
            ended += part.count(b"\nend\n")
            tell(ended)
    except BaseException:
        ran.kill()
        raise
    return b"".join(parts)


def refuse_other(head):
    """Refuses what can't be the begin of answers: scripts begin with commands that are done or refused."""
    line, is_whole, _ = head.partition(b"\n")
    is_begun = b"error: ".startswith(line) or b"ok".startswith(line)
    if not (line == b"ok" or line.startswith(b"error: ") if is_whole else is_begun or line.startswith(b"error: ")):
        raise wrong(text_of(line))


def program_of(is_unproved):
    """The program that is to be asked."""
    if is_unproved:
        if not shutil.which("rt"):
            raise Fault("--unproved needs Rattle's `rt` on the path")
        return Program(("rt", "try", "--seconds", MOST_SECONDS), CRATE, False)
    named = os.environ.get("FLEET_SHELL")
    built = os.path.abspath(named) if named else next(filter(os.path.isfile, PLACES), PLACES[-1])
    if named and os.path.exists(built) and not (os.path.isfile(built) and os.access(built, os.X_OK)):
        raise Fault(f"FLEET_SHELL={printable(named)}: no file that can be run")
    if not os.path.isfile(built):
        raise Fault(f"FLEET_SHELL={printable(named)}: no such file" if named else HOW_TO_BUILD)
    return Program((built,), os.getcwd(), True)
