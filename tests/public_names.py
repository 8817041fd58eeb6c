"""The public names of the crates: which of them have a word that tests/names.txt refuses, and which types of one name stand above each other.

tests/names.txt has lines of three kinds: `refused WORD..`, words that no public name may have; `stays CRATE NAME` and `stays CRATE NAME
CRATE`, a name that may have one and a type that may have a namesake in that crate below, each with the reason behind `#`; and `later` with
the same words, for a name that is still to be changed. A `later` line whose name has gone is a fault too, so that the list only shrinks;
`tests/pages` takes such lines away, and adds none."""
import glob
import os
import re

from repository import ROOT, all_below

LIST = os.path.join(ROOT, "tests", "names.txt")
ITEM = re.compile(r"\s*pub (?:const |unsafe )?(fn|struct|enum|trait|type|const) (\w+)")
FIELD = re.compile(r"\s*pub (\w+):")
FUNCTION = re.compile(r"\s*(?:pub(?:\([a-z]+\))? )?(?:const |unsafe )?fn (\w+)")
CLAUSE = re.compile(r"\s*(?:ensures|requires) (\w+) \{")
TRAIT = re.compile(r"pub trait \w+")
TYPES = ("struct", "enum", "trait", "type")


def public_names(crate):
    """Returns each public name of a crate's code as its kind, its file and itself: items, fields, methods of traits, and clauses of these functions."""
    found = []
    for file in sorted(glob.glob(os.path.join(ROOT, "crates", crate, "src", "**", "*.rt"), recursive=True)):
        if re.search(r"/src/tests(/|\.rt$)", file):
            continue
        place = os.path.relpath(file, ROOT)
        in_trait, is_public = False, False
        with open(file, encoding="utf-8") as lines:
            for line in lines:
                if line.lstrip().startswith("//"):
                    continue
                if not line.startswith((" ", "}", "\n", ")")):
                    in_trait = bool(TRAIT.match(line))
                item, field, function, clause = (it.match(line) for it in (ITEM, FIELD, FUNCTION, CLAUSE))
                if function:
                    is_public = bool(item) or in_trait
                if item:
                    found.append((item[1], place, item[2]))
                elif function and in_trait:
                    found.append(("fn", place, function[1]))
                elif field:
                    found.append(("field", place, field[1]))
                elif clause and is_public:
                    found.append(("clause", place, clause[1]))
    return found


def words_of(name):
    """Returns a name's words, in small letters, between underscores: `SecondNames` is `second_names`."""
    return re.sub(r"(?<=[a-z0-9])(?=[A-Z])|(?<=[A-Z])(?=[A-Z][a-z])", "_", name).lower()


def has_word(name, word):
    return f"_{word}_" in f"_{words_of(name)}_"


def listed():
    """Returns the words that are refused, the names that stay, and those that are still to be changed."""
    refused, stays, later = [], set(), set()
    with open(LIST, encoding="utf-8") as lines:
        for line in lines:
            kind, _, rest = line.split("#")[0].strip().partition(" ")
            if kind == "refused":
                refused += rest.split()
            elif kind == "stays":
                stays.add(tuple(rest.split()))
            elif kind == "later":
                later.add(tuple(rest.split()))
    return refused, stays, later


def with_refused_words(names, refused):
    """Returns the public names that have a refused word, each as its crate and itself, with a file and what it is there."""
    found = {}
    for crate, items in names.items():
        for kind, file, name in items:
            if any(has_word(name, it) for it in refused):
                found.setdefault((crate, name), f"{file}: {kind} {name} has a refused word")
    return found


def namesakes(names, uses):
    """Returns the public types of which a crate below has another of that name, each as its crate, itself and that crate, with their files."""
    types = {crate: {name: file for kind, file, name in items if kind in TYPES} for crate, items in names.items()}
    found = {}
    for crate, own in types.items():
        for below in sorted(all_below(crate, uses)):
            for name in sorted(set(own) & set(types[below])):
                found[(crate, name, below)] = f"{own[name]}: type {name} has a namesake in {types[below][name]}"
    return found


def names_found(uses):
    """Returns all public names that are wrong, whatever tests/names.txt says of them, and the reason of each."""
    names = {crate: public_names(crate) for crate in uses}
    return {**with_refused_words(names, listed()[0]), **namesakes(names, uses)}


def faults_of_names(uses):
    """Returns what is wrong with public names, and what is wrong with those that are listed as still to be changed."""
    found = names_found(uses)
    _, stays, later = listed()
    faults = [why for key, why in sorted(found.items()) if key not in later | stays]
    gone = [f"tests/names.txt: {' '.join(it)} has gone: run tests/pages" for it in sorted((later | stays) - set(found))]
    return faults + gone, [why for key, why in sorted(found.items()) if key in later]


def take_gone_lines_away(uses):
    """Takes the lines of names that have gone out of tests/names.txt."""
    found = names_found(uses)
    with open(LIST, encoding="utf-8") as lines:
        kept = [it for it in lines if it.split()[:1] not in (["later"], ["stays"]) or tuple(it.split("#")[0].split()[1:]) in found]
    with open(LIST, "w", encoding="utf-8") as it:
        it.writelines(kept)
