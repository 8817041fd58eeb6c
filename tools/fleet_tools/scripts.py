"""Scripts as the program reads them, written from trees."""
import hashlib
import re

from .faults import Fault
from .places import NODE, Link

MOST_SCRIPT_BYTES = 16_777_216

# What a text can have as it is, and how the rest is spelled.
PLAIN = bytes(range(32, 127))
OTHERS = {it: f"\\x{it:02x}" for it in range(256) if it not in PLAIN}


def spelled(content):
    """The bytes of a file as TEXT of a script, in printable ASCII."""
    text = content.replace(b"\\", b"\\\\").replace(b"\n", b"\\n").replace(b"\t", b"\\t")
    if text.translate(None, PLAIN):
        text = text.decode("latin-1").translate(OTHERS).encode("ascii")
    return text


def node_word(name):
    """The name in scripts of a node with this name: the same where scripts can have it, else its letters and digits and a print of it."""
    if NODE.fullmatch(name):
        return name
    return "".join(it for it in name if it.isalnum())[:24] + hashlib.sha256(name.encode("ascii")).hexdigest()[:8]


def edit_line(node, place, content):
    """The line that puts something at a place of a node, or removes what is there."""
    if content is None:
        return f"remove {node} {place}".encode("ascii")
    if isinstance(content, Link):
        return f"link {node} {place} {content.target}".encode("ascii")
    line = f"put {node} {place}".encode("ascii")
    return b"%b %b" % (line, spelled(content)) if content else line


def edits_of(node, trees):
    """The lines that put these trees into a node."""
    return [edit_line(node, place, content) for tree in sorted(trees, key=lambda it: it.host) for place, content in tree.ordered()]


def node_of(node, trees, writer=1):
    """The lines of a script that make a node and put these trees into it."""
    return [f"node {node} {writer}".encode("ascii"), *edits_of(node, trees)]


def remarks_of(trees):
    """The lines of a script that name the hosts whose trees have no place, as where `--factor` left none; `remarked_hosts` reads them."""
    return [f"# {it.host} has no place of its own".encode("ascii") for it in trees if it.host and not it.entries]


def remarked_hosts(script):
    """The hosts that a script names as ones without a place."""
    return {it.decode("ascii") for it in re.findall(rb"(?m)^# ([A-Za-z0-9.\-]{1,64}) has no place of its own\r?$", script)}


def script_of(lines):
    """The script with these lines; a fault where the program wouldn't read so long a one."""
    script = b"".join(b"%b\n" % it for it in lines)
    if len(script) > MOST_SCRIPT_BYTES:
        raise Fault(f"too large: the script has {len(script):,} bytes, and the program reads at most {MOST_SCRIPT_BYTES:,}: "
                    "`fleet import --factor` gives what hosts share once, `--split` writes several scripts")
    return script


def parts_of(lines):
    """The lines of as many scripts as it takes so that the program reads each."""
    parts, size = [[]], 0
    for line in lines:
        if size + len(line) + 1 > MOST_SCRIPT_BYTES:
            parts.append([])
            size = 0
        parts[-1].append(line)
        size += len(line) + 1
    return parts
