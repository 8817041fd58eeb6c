"""Questions about a store made of trees: what the fleet's files come to for each of its hosts, in one run of the program."""
from dataclasses import dataclass, field
from typing import Dict, Tuple, Union

from .answers import Answers, Plan, Unit, odd_sections
from .faults import Fault, Status, printable
from .places import Link
from .profiles import Profile
from .refusals import Refusal
from .scripts import node_of

NODE = "tree"


class Refused(Fault):
    """A refusal where an answer was needed."""

    def __init__(self, words):
        super().__init__(words, Status.WRONG)


@dataclass(frozen=True)
class Seen:
    """What all units come to for a host, or, without one, for the fleet: the units by name, and what the plans of some targets are answered;
    of a host's tree, if that is asked for, what stands in it, and the crossed units."""

    host: str
    units: Dict[str, Unit]
    plans: Dict[str, Union[Plan, Refusal]]
    tree: Dict[str, Union[bytes, str]] = field(default_factory=dict)
    crossed: Tuple[str, ...] = ()


class Store:
    """The store with these trees' files, of which the program is asked by a profile for these hosts, the fleet being the host without a
    name. Each call runs the program once."""

    def __init__(self, program, progress, trees, hosts, workers, profile):
        self.program = program
        self.progress = progress
        self.trees = trees
        self.profile = profile
        self.hosts = hosts
        self.edits = node_of(NODE, trees)
        self.entries = {str(place): content for tree in trees for place, content in tree.entries.items()}
        # the lines in front of the edits, each with the word of the command line that it comes from
        self.front = [] if workers is None else [("--workers", f"workers {workers}")]
        self.front += [("--profile", f"profile {profile.value}")] if profile is not Profile.FILES else []

    def asked(self, questions):
        """The answers to questions, which are a host and lists of words behind the node's."""
        lines = [" ".join([words[0], f"{NODE}@{host}" if host else NODE, *words[1:]]) for host, words in questions]
        self.progress.tell(f"asking the program: {len(lines):,} {'question' if len(lines) == 1 else 'questions'}")
        front = [line.encode("ascii") for _, line in self.front]
        spelled = [it.encode("utf-8", "surrogateescape") for it in lines]
        written = self.program.answer([*front, *self.edits, *spelled], lambda ended: self.progress.tell(f"{ended:,} answers"))
        answers = Answers(written, self.entries, odd_sections(it for it in self.entries.values() if not isinstance(it, Link)))
        self.progress.end()
        for word, _ in self.front:
            refusal = answers.refused()
            if refusal:
                raise Refused(f"{word}: {refusal}")
            answers.done()
        answers.done()
        answers.versions(len(self.edits) - 1)
        return answers

    def files(self):
        """The length of each file by its place, for answers that tell contents."""
        return {place: len(it) for place, it in self.entries.items() if not isinstance(it, Link)}

    def seen(self, plans=lambda host: (), with_trees=False):
        """What each host sees, with the plans of the targets that are given for it, each a list of words, and if it is asked for hosts' trees."""
        rows = [(host, ("units",), [*plans(host)], with_trees and bool(host)) for host in self.hosts]
        questions = [(host, words) for host, units, targets, has_tree in rows
                     for words in (units, *(("plan", *it) for it in targets), *([("tree",)] if has_tree else []))]
        answers, files, found = self.asked(questions), self.files(), []
        for host, _, targets, has_tree in rows:
            units = needed(answers.units(), host)
            planned = {it[0]: answers.plan() for it in targets}
            found.append(Seen(host, units, planned, *(needed(answers.tree(files, host), host) if has_tree else ())))
        answers.ended()
        return found

    def shown(self, host, names):
        """What these names come to for a host, by the name that was asked for."""
        if not names:
            return {}
        answers = self.asked([(host, ("show", it)) for it in names])
        units = {it: needed(answers.unit(), it) for it in names}
        answers.ended()
        return units


def needed(answer, what):
    """An answer that must be none of a refusal."""
    if isinstance(answer, Refusal):
        raise Refused(f"{what}: {answer}" if what else str(answer))
    return answer


def hosts_of(trees, host):
    """The hosts for which trees are asked: the one that is named, or the fleet and each host that has a tree; of trees of hosts alone, these."""
    own = [it.host for it in sorted(trees, key=lambda it: it.host)]
    if host is not None:
        if host not in own:
            raise Fault(f"--host {printable(host)}: no tree stands for this host")
        return [host]
    return own
