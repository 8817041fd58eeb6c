"""A sync of a state file by a folder: pieces for the node are taken, then its digest is written, and for each other node what that one lacks."""
import hashlib
from contextlib import closing
from dataclasses import dataclass, field
from typing import Dict, List

from ..faults import printable
from .exchanges import Failed
from .programs import SENTENCES, NodeFault
from .shared_folders import SharedFolder, name_of

# A piece with no entry, of which docs/FORMAT.md tells the bytes.
NO_ENTRY = b"UCRS\x01\x02\x00"
NO_PIECE = NO_ENTRY + hashlib.sha256(NO_ENTRY).digest()

TAKEN = "X7"


@dataclass
class FolderSync:
    """What came of a sync by a folder: how many places changed by the pieces of each node, and what was passed over, and why."""

    changed: Dict[str, int] = field(default_factory=dict)
    passed: List[str] = field(default_factory=list)

    def pass_over(self, name, why):
        """Passes over a file of the folder."""
        self.passed.append(f"{name}: passed over: {why}")


def by_folder(state, path):
    """Syncs by a folder."""
    own, peers = state.peers()
    sync = FolderSync()
    try:
        folder = SharedFolder(path, name_of(own))
    except OSError as fault:
        raise Failed(fault.strerror) from fault
    with closing(folder):
        try:
            digests, pieces = folder.look()
            refused = refused_names(own, peers, {*digests, *(writer for writer, _ in pieces)})
            if folder.own in refused:
                raise Failed(f"{' and '.join(refused[folder.own])}: X7 WriterTaken: {SENTENCES[TAKEN]}, and remove its files", TAKEN)
            for name, others in sorted(refused.items()):
                sync.pass_over(name, f"X7 WriterTaken: {SENTENCES[TAKEN]}, and remove its files ({', '.join(others)})")
            take_pieces(state, folder, [it for it, other in pieces if other == folder.own and it not in refused], sync)
            write_own(state, folder, [it for it in digests if it != folder.own and it not in refused], pieces, sync)
        except OSError as fault:
            raise Failed(f"{printable(str(fault.filename or path))}: {fault.strerror}") from fault
    return sync


def refused_names(own, peers, names):
    """The nodes of a folder under whose number another one writes, each with those: but one that was met or told of is none, since it was there
    first. The node itself among them means that another has its number."""
    known, found = {name_of(it) for it in (own, *peers)}, {}
    for it in {*known, *names}:
        found.setdefault(it.partition("-")[0], set()).add(it)
    refused = {}
    for same in found.values():
        strangers = same & names - known
        if strangers and len(same) > 1:
            refused |= {it: sorted(same - {it}) for it in (strangers if same & known and name_of(own) not in same else same)}
    return refused


def take_pieces(state, folder, writers, sync):
    """Takes the pieces that other nodes wrote for this one."""
    for it in writers:
        name = f"{it}.for.{folder.own}.piece"
        piece = content_of(folder, name, sync)
        if piece is None:
            continue
        try:
            changed = state.take(piece)
        except NodeFault as fault:
            pass_refused(name, fault, sync)
        else:
            if changed:
                sync.changed[it] = changed


def write_own(state, folder, others, pieces, sync):
    """Writes the node's digest, and for each other node what that one lacks; removes what it wrote for those that lack nothing."""
    digest = state.run("digest")
    folder.write(f"{folder.own}.digest", digest)
    for it in others:
        name = f"{folder.own}.for.{it}.piece"
        given = content_of(folder, f"{it}.digest", sync)
        if given is None:
            continue
        try:
            piece = NO_PIECE if given == digest else state.run("delta", given=given)
        except NodeFault as fault:
            pass_refused(f"{it}.digest", fault, sync)
            continue
        if piece == NO_PIECE:
            folder.remove(name)
        else:
            folder.write(name, piece)
    for writer, it in pieces:
        if writer == folder.own and it not in others:
            folder.remove(f"{writer}.for.{it}.piece")


def content_of(folder, name, sync):
    """The bytes of a file of another node; nothing where it is gone by now, or passed over."""
    try:
        return folder.read(name)
    except FileNotFoundError:
        return None
    except OSError as fault:
        sync.pass_over(name, fault.strerror)
        return None


def pass_refused(name, fault, sync):
    """Passes over a file whose bytes the program refused; other refusals end the sync."""
    if fault.code[:1] != "Y":
        raise fault
    sync.pass_over(name, fault.told)
