"""The repository's crates, as crates.txt has them."""
import os

ROOT = os.path.dirname(os.path.dirname(os.path.realpath(__file__)))


def used_by_crates():
    """Returns the crates in the order of crates.txt, each with those of the repository that it uses."""
    uses = {}
    with open(os.path.join(ROOT, "crates.txt"), encoding="utf-8") as it:
        for line in it:
            name, colon, libraries = line.split("#")[0].partition(":")
            if colon:
                uses[name.split()[0]] = libraries.split()
    return {name: [it for it in libraries if it in uses] for name, libraries in uses.items()}


def all_below(name, uses):
    """Returns all crates that a crate stands on."""
    found = set()
    for it in uses[name]:
        found |= {it} | all_below(it, uses)
    return found
