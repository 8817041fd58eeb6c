"""A place's file in an editor."""
import os
import shlex
import shutil
import signal
import subprocess
import tempfile

from ..faults import Fault, Status, cut, printable
from ..places import MOST_FILE_BYTES, Link
from ..reports import tell
from .editing import Edited, edited
from .files import NoPlace

NAMED = ("VISUAL", "EDITOR")
USUAL = ("editor", "vi")

SECONDS_TO_END = 5


def editor():
    """The words that start the editor."""
    for name in NAMED:
        if os.environ.get(name, "").strip():
            return shlex.split(os.environ[name])
    found = next(filter(shutil.which, USUAL), None)
    if not found:
        raise Fault(f"no editor: {' or '.join(NAMED)} names one")
    return [found]


def ended(process):
    """The status with which an editor ends. Ctrl-C meanwhile is the editor's, which shares the terminal; what stops the verb ends the editor, which
    may still save."""
    before = signal.signal(signal.SIGINT, signal.SIG_IGN)
    try:
        return process.wait()
    except BaseException:
        process.terminate()
        try:
            process.wait(SECONDS_TO_END)
        except subprocess.TimeoutExpired:
            process.kill()
            process.wait()
        raise
    finally:
        signal.signal(signal.SIGINT, before)


class Draft:
    """The text of a place in a file of its own, while it is edited. The folder goes at the end, unless the text is kept."""

    def __init__(self, place, text):
        self.name, self.before = place.rpartition("/")[2], text
        self.folder, self.path, self.is_kept = None, None, False

    def __enter__(self):
        try:
            self.folder = tempfile.mkdtemp(prefix="fleet-edit-")
            self.path = os.path.join(self.folder, self.name)
            with open(os.open(self.path, os.O_WRONLY | os.O_CREAT | os.O_EXCL | os.O_CLOEXEC, 0o600), "wb") as file:
                file.write(self.before)
        except BaseException:
            self.remove()
            raise
        return self

    def __exit__(self, kind, _fault, _trace):
        if kind is not None:
            self.keep()
        self.remove()

    def remove(self):
        """Removes it, unless it is kept."""
        if self.folder and not self.is_kept:
            shutil.rmtree(self.folder, ignore_errors=True)

    def text(self):
        """The text as it is now; nothing where the file is gone."""
        try:
            with open(self.path, "rb") as file:
                return file.read(MOST_FILE_BYTES + 1)
        except FileNotFoundError:
            return None

    def keep(self):
        """Keeps what was edited, where anything was, and tells where it is."""
        if not self.is_kept and self.text() not in (self.before, None):
            self.is_kept = True
            tell(f"the edited text is kept: {printable(self.path)}")

    def edit(self):
        """Has it edited. Why that failed, in words; nothing where it went well."""
        words = editor()
        try:
            process = subprocess.Popen([*words, self.path])
        except OSError as fault:
            return f"{cut(words[0])}: it can't be run: {fault.strerror}"
        status = ended(process)
        if status:
            return f"the editor ended with {f'signal {-status}' if status < 0 else f'status {status}'}"
        return "the editor left no file" if self.text() is None else None


def edit(state, place, is_forced):
    """Has a place's file edited, or a new one. What came of it."""
    try:
        held, content = state.at(place)
    except NoPlace as none:
        return Edited(place, None, refusal=none.refusal)
    if isinstance(content, Link):
        raise Fault(f"{place}: a link to {content.target}: `fleet link` changes it", Status.WRONG)
    with Draft(place, content or b"") as draft:
        if why := draft.edit():
            raise Fault(f"{place}: nothing is written: {why}", Status.WRONG)
        text = draft.text()
        if text == (content or b""):
            if content is None:
                tell(f"{place}: left empty, so nothing is written: an empty file masks a unit, and `fleet put` makes one")
            return Edited(place, content)
        return written(state, place, held, text, draft, is_forced)


def written(state, place, held, text, draft, is_forced):
    """Writes what was edited, unless the place was changed since; what isn't written is kept."""
    now, content = state.at(place)
    if content == text:
        return Edited(place, text)
    if version_of(now) != version_of(held) and not is_forced:
        raise Fault(f"{place}: nothing is written: meanwhile it became {told(now)}; --force writes over it", Status.WRONG)
    before, outcome = state.edit_over(place, text)
    found = edited(place, text, outcome)
    if found.refusal:
        draft.keep()
    elif version_of(before) != version_of(held):
        tell(f"{place}: this stands over {told(before)}, which came meanwhile; `fleet revert` brings it back")
    return found


def version_of(held):
    """The version that is held at a place; nothing where there is none."""
    return held and held.version


def told(held):
    """What is held at a place, in words."""
    return f"{held.words()} ({held.version})" if held else "a place that was never edited"
