"""What unit files of a store come to: the rules of systemd.unit(5) and systemd.syntax(7) as docs/DEFINITIONS.md tells them, once more and
in another language, without a look at the program. A store is a dictionary from the places at which something is visible to contents: the text
of a file (a character for each byte), or a `Link`. A place is a path, which is the fleet's, or a host's name, a colon and a path.

Names and texts of files are in unit_text, edges and plans in unit_graph. What a unit has beside what its files ask for is its profile's, and
stands in implied_model: nothing in the profile `files`, and what systemd's system manager adds in the profile `manager`."""
import functools
import re

from implied_model import PROFILES
from unit_graph import LOADED
from unit_text import DIRECTORIES, FAULT_NAMES, MOST_ALIASES, MOST_NAMES, SETTABLE, TRUE, WITHOUT_ALIASES  # tests/questions reads SETTABLE
from unit_text import Link, Name, Refused, expanded, filled, name_or_none, read, settings_of, stands_for

# ---- what a store gives for a name


def is_host(text):
    """Whether a host may have this name."""
    return bool(re.fullmatch(r"[A-Za-z0-9.-]{1,64}", text))


class Units:
    """What a store comes to for a host, or, without one, for the whole fleet, in a profile. H1 where the host has no name that a host may
    have."""

    def __init__(self, store, host, profile="files"):
        if host is not None and not is_host(host):
            raise Refused("H1")
        self.store, self.profile = store, PROFILES[profile]
        # The directories that are looked at, by levels: of each the host's own, and then the fleet's.
        scopes = [""] if host is None else [f"{host}:", ""]
        self.levels = [scope + directory for directory in DIRECTORIES for scope in scopes]
        # What stands in each folder, by name.
        self.folders_there = {}
        for place, content in store.items():
            folder, _, name = place.rpartition("/")
            self.folders_there.setdefault(folder, []).append((name, content))

    def own(self):
        """The names of one component at which something stands, each with that, in no order."""
        cut = [(place.rpartition("/"), content) for place, content in self.store.items()]
        return [(name, content) for (directory, _, name), content in cut if directory in self.levels]

    def folder(self, directory, folder):
        """The names and contents in a folder, in no order."""
        return self.folders_there.get(f"{directory}/{folder}", [])

    def says(self, own, name):
        """What the own places of a name say for a name."""
        for directory in self.levels:
            content = self.store.get(f"{directory}/{own}")
            if content is None:
                continue
            if not isinstance(content, Link):
                return ("masked",) if not content else ("fragment", f"{directory}/{own}")
            said = self.link_says(own, name, content)
            if said:
                return said
        return None

    def link_says(self, own, name, target):
        """What a link says; nothing where it is passed over."""
        if target == "/dev/null":
            return ("masked",)
        there, here, asked = name_or_none(target.rpartition("/")[2]), Name(own), Name(name)
        if not there:
            return "bad", "B4"
        if there.text in (own, here.template()):
            return None
        if there.kind != here.kind or here.kind in WITHOUT_ALIASES:
            return "bad", "B1"
        fits = there.shape == here.shape and (here.shape != "instance" or there.instance == here.instance)
        if not (fits or (here.shape, there.shape) == ("instance", "template")):
            return "bad", "B2"
        if there.shape == "template" and asked.shape == "instance":
            alias = filled(there.text, asked.instance)
            return ("alias", alias) if alias else ("bad", "B4")
        return "alias", there.text

    def choice(self, name):
        template = Name(name).template()
        said = self.says(name, name) or template and self.says(template, name) or ("not-found",)
        return self.profile.choice(name, said)

    def resolved(self, name):
        """The main name, and what stands there."""
        at = name
        for _ in range(MOST_ALIASES):
            said = self.choice(at)
            if said[0] != "alias":
                return at, said
            at = said[1]
        said = self.choice(at)
        return (name, ("bad", "B3")) if said[0] == "alias" else (at, said)

    @functools.cached_property
    def linked_names(self):
        """The names at which a link is visible."""
        return [it for it in {name for name, content in self.own() if isinstance(content, Link)} if name_or_none(it)]

    def names(self, main):
        name, found = Name(main), set()
        for linked in self.linked_names:
            own = linked
            if Name(linked).shape == "template" and name.shape == "instance":
                own = filled(linked, name.instance)
            if own and own != main and self.resolved(own)[0] == main:
                found.add(own)
        return [main, *sorted(found)]

    # ---- drop-ins and link folders

    def taken(self, names, types, ending, counts):
        """For each file name what is taken: folders of names go before those of types, then the least level counts, and then where the folder
        stands in the list."""
        found = {}
        for turn, owners in enumerate([names, types]):
            for at, folder in enumerate(owners):
                for level, directory in enumerate(self.levels):
                    for file, content in self.folder(directory, folder + ending):
                        if counts(file, content):
                            found.setdefault(file, []).append((turn, level, at, f"{directory}/{folder}{ending}/{file}", content))
        return {file: min(those)[3:] for file, those in found.items()}

    def dropins(self, names):
        types = list(dict.fromkeys(Name(name).kind for name in names))
        taken = self.taken(folders(names), types, ".d", is_dropin)
        return [place for _, (place, content) in sorted(taken.items()) if content and not isinstance(content, Link)]

    def links(self, names, ending):
        taken = self.taken(folders(names), [], ending, lambda _, content: isinstance(content, Link))
        return sorted(file for file, (_, target) in taken.items() if target != "/dev/null" and name_or_none(file))

    def contents(self, names):
        """The drop-ins and the links that name units, of each sort, by file name and content."""
        types = list(dict.fromkeys(Name(name).kind for name in names))
        dropins = {file: content for file, (_, content) in self.taken(folders(names), types, ".d", is_dropin).items() if content and not isinstance(content, Link)}
        found = [dropins]
        for ending in (".wants", ".requires"):
            taken = self.taken(folders(names), [], ending, lambda _, content: isinstance(content, Link))
            found.append({file: target for file, (_, target) in taken.items() if target != "/dev/null" and name_or_none(file)})
        return found

    # ---- one unit

    def unit(self, main):
        said = self.resolved(main)[1]
        names = self.names(main)
        unit = {"name": main, "names": names, "said": said, "dropins": [], "values": [], "settings": {}, "notes": [], "manual": False,
                "named": {it: set() for it in self.profile.settable}}
        if said[0] not in LOADED:
            return unit
        unit["dropins"] = self.dropins(names)
        items = []
        for place in [*said[1:], *unit["dropins"]]:
            more, notes = read(self.store[place])
            items += more
            unit["notes"] += [f"{code} {place}:{line}" for code, line in notes]
        rows, notes = settings_of(items, self.profile.kept, self.profile.switches)
        unit["notes"] += [f"{code} {key}" for code, key in notes]
        switch = rows.get(("Unit", "RefuseManualStart"), [])
        unit["manual"] = bool(switch) and switch[0].lower() in TRUE
        self.add_values(unit, rows)
        self.add_dependencies(unit, rows)
        self.profile.imply(unit)
        return unit

    def add_values(self, unit, rows):
        for (section, key), values in rows.items():
            if section == "Unit" and key in self.profile.settable:
                continue
            for value in values:
                value = value if (section, key) in self.profile.switches else expanded(value, unit["name"])
                if value is None:
                    unit["notes"].append(f"K5 {section}.{key}")
                else:
                    unit["values"].append(f"{section}.{key}={value}")
                    unit["settings"].setdefault((section, key), []).append(value)

    def add_dependencies(self, unit, rows):
        for key in self.profile.settable:
            for word in (it for value in rows.get(("Unit", key), []) for it in re.split(r"[ \t\r]+", value) if it):
                name = expanded(word, unit["name"])
                if name is None:
                    unit["notes"].append(f"K5 Unit.{key}")
                else:
                    self.add_named(unit, key, name)
        for key, ending in (("Wants", ".wants"), ("Requires", ".requires")):
            for name in self.links(unit["names"], ending):
                self.add_named(unit, key, name)

    @staticmethod
    def add_named(unit, key, text):
        name = stands_for(text, unit["name"])
        if name:
            unit["named"][key].add(name)
        else:
            unit["notes"].append(f"K6 Unit.{key}")

    # ---- all units

    def load(self, extra):
        """The main name of each name of the universe, and the units by main name."""
        waiting = sorted({*extra, *self.profile.perpetual, *[it for it, _ in self.own() if name_or_none(it) and Name(it).shape != "template"]})
        mains, units = {}, {}
        while waiting:
            name = waiting.pop()
            if name in mains:
                continue
            mains[name] = self.resolved(name)[0]
            if len(mains) > MOST_NAMES:
                raise Refused("L2")
            if mains[name] == name:
                units[name] = self.unit(name)
                waiting += [it for names in units[name]["named"].values() for it in names]
            else:
                waiting.append(mains[name])
        return mains, units


def is_dropin(file, content):
    return file.endswith(".conf") and len(file) > 5 and (not isinstance(content, Link) or content == "/dev/null")


def folders(names):
    """The folders that speak for these names."""
    found = []
    for name in map(Name, names):
        cuts = [name.prefix[: at + 1] for at in range(len(name.prefix) - 1, -1, -1) if name.prefix[at] == "-"]
        for prefix in [name.prefix, *[it for it in cuts if len(it) < len(name.prefix)]]:
            if name.shape == "plain":
                found.append(f"{prefix}.{name.kind}")
            else:
                found += [f"{prefix}@{name.instance}.{name.kind}", f"{prefix}@.{name.kind}"]
    return list(dict.fromkeys(found))


# ---- trees of hosts


def parts(path):
    """The number of a path's directory, its folder (nothing of one component) and its last component. So paths are ordered."""
    number = next(at for at, it in enumerate(DIRECTORIES) if path.startswith(f"{it}/"))
    folder, _, name = path.removeprefix(f"{DIRECTORIES[number]}/").rpartition("/")
    return number, folder, name


def is_passed_over(path, content):
    """Whether what stands at a path says nothing there: a link of a unit's own name to itself, a link among drop-ins, a file among links."""
    _, folder, name = parts(path)
    is_link, is_mask = isinstance(content, Link), content == "/dev/null"
    if not folder:
        unit = name_or_none(name)
        return bool(unit) and is_link and not is_mask and content.rpartition("/")[2] in (name, unit.template())
    if folder.endswith(".d"):
        return name.endswith(".conf") and name != ".conf" and is_link and not is_mask
    return folder.endswith((".wants", ".requires")) and not is_link


def tree(store, host):
    """The paths and contents that the manager of a host finds, or one without a host, in order of paths."""
    scopes = [""] if host is None else [f"{host}:", ""]
    paths = {place.removeprefix(scope) for scope in scopes for place in store if place.startswith(f"{scope}/")}
    found = {path: [store[scope + path] for scope in scopes if scope + path in store] for path in paths}
    return [(path, next((it for it in found[path] if not is_passed_over(path, it)), found[path][0])) for path in sorted(paths, key=parts)]


def crossed(store, host, profile="files"):
    """The units that have other drop-ins or links in the tree of a host, read alone, than for the host."""
    seen, alone = Units(store, host, profile), Units(dict(tree(store, host)), None, profile)
    _, units = seen.load([])
    return [main for main, unit in sorted(units.items()) if seen.contents(unit["names"]) != alone.contents(unit["names"])]


# ---- what scripts are answered


def asked_graph(store, host, names, profile="files"):
    units = Units(store, host, profile)
    if "template" in [Name(it).shape for it in names]:
        raise Refused("P1")
    return units.profile.graph(*units.load(names))


def shown(graph, name):
    unit = graph.units[name]
    said = unit["said"]
    status = {"fragment": "loaded", "bad": "bad", "masked": "masked", "not-found": "not-found", "built-in": "built-in"}[said[0]]
    told = {"fragment": said[-1], "bad": f"{said[-1]} {FAULT_NAMES.get(said[-1])}"}.get(said[0], "")
    lines = [f"unit {unit['name']}", f"status {status} {told}".rstrip(), "names " + " ".join(unit["names"])]
    lines += [f"dropin {it}" for it in unit["dropins"]] + unit["values"]
    for kind in graph.inverses:
        names = graph.to([kind], unit["name"])
        lines += ["".join([f"{kind}:", *[f" {it}" for it in names]])] if names else []
    return lines + [f"note {it}" for it in unit["notes"]] + ["end"]


def show(store, host, name, profile="files"):
    graph = asked_graph(store, host, [name], profile)
    return shown(graph, graph.mains[name])


def units(store, host, profile="files"):
    graph = asked_graph(store, host, [], profile)
    return [*[line for name in sorted(graph.units) for line in shown(graph, name)], "end"]


def list_pulled(store, host, name, profile="files"):
    graph = asked_graph(store, host, [name], profile)
    return [*[f"{depth} {it}" for depth, it in graph.depths(graph.mains[name])], "end"]


def plan(store, host, name, running, profile="files"):
    graph = asked_graph(store, host, [name, *running], profile)
    target, running = graph.mains[name], graph.running(running)
    graph.refuse(target, running)
    chosen = graph.chosen(target, running)
    starts = graph.started(chosen - running)
    return [*[f"stop {it}" for it in graph.stopped(target, chosen, running)], *[f"start {it}" for it in starts], "end"]


def cat(store, host, name):
    units = Units(store, host)
    main, said = units.resolved(Name(name).text)
    if said[0] != "fragment":
        raise Refused({"not-found": "P2", "masked": "P3", "bad": "P4"}[said[0]], main)
    return [*[it for place in [said[1], *units.dropins(units.names(main))] for it in file_lines(place, store[place])], "end"]


def file_lines(place, text):
    """The lines of a file after that of its place; to its bytes a line feed is added, unless their last one is one."""
    return [f"# {place}", *text.removesuffix("\n").split("\n")]


def refuse_place(word):
    """Refuses a word that writes no place, for the first thing wrong with it."""
    host, colon, path = word.partition(":")
    if word.startswith("/") or not colon:
        path = word
    elif not is_host(host):
        raise Refused("H1")
    directory = next((it for it in DIRECTORIES if path.startswith(f"{it}/")), None)
    if not directory:
        raise Refused("F1")
    parts = path[len(directory) + 1:].split("/")
    if len(parts) > 2:
        raise Refused("F2")
    if any(not re.fullmatch(r"[!-~]{1,255}", it) or it in (".", "..") for it in parts):
        raise Refused("F3")


def text(store, place):
    """The file or the link that is visible at a place."""
    refuse_place(place)
    content = store.get(place)
    if content is None:
        raise Refused("E3")
    return [*shown_lines(place, content), "end"]


def shown_lines(place, content):
    """The lines of a file, or the line of a link."""
    return [f"{place} link {content}"] if isinstance(content, Link) else file_lines(place, content)


def whole_tree(store, host, profile="files"):
    """The tree of a host, and the units that read otherwise in it."""
    names = crossed(store, host, profile)
    return [*[line for path, content in tree(store, host) for line in shown_lines(path, content)], *[f"crossed {it}" for it in names], "end"]
