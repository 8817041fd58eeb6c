"""What a work comes to for a manager: which units change, and what takes effect when."""
from concurrent.futures import ThreadPoolExecutor
from dataclasses import dataclass
from typing import Dict, List, Union

from .. import diffs
from ..answers import EDGE_KINDS, Plan, UnitStatus
from ..asking import Seen, Store
from ..checks import default_target
from ..profiles import Profile
from ..refusals import Refusal

# Kinds of dependencies that nothing but a unit's own files tell, and those that another unit's tell too.
OWN_KINDS, ORDER_KINDS = EDGE_KINDS[2::2], EDGE_KINDS[:2]
# Sections that a reload brings to what runs, so that no restart is needed.
WITHOUT_RESTART = ("Slice", "Scope")


@dataclass(frozen=True)
class Effects:
    """What changes, by unit or file; the target whose plans were asked for, and these before and after; and which units are to be reloaded,
    restarted, stopped and started."""

    changes: Dict[str, List[diffs.Change]]
    target: str
    before: Union[Plan, Refusal, None]
    after: Union[Plan, Refusal, None]
    deeds: Dict[str, List[str]]


def effects_of(program, progress, trees, target):
    """What it comes to that a tree becomes another one, with the plans of a target, or else of the boot afterwards."""
    stores = [Store(program, progress, [it], [""], None, Profile.MANAGER) for it in trees]
    named = target or default_target(stores[1], "") or ""
    with ThreadPoolExecutor(2) as both:
        (before,), (after,) = both.map(lambda it: it.seen(lambda _: [(named,)] if named else []), stores)
    changes = diffs.differences(diffs.Side(stores[0], before), diffs.Side(stores[1], after))
    deeds = {"reload": reloaded(changes, trees, before, after), "restart": restarted(changes, before, after),
             "stop": stopped(before, after, named), "start": started(before, after, named)}
    return Effects(changes, named, before.plans.get(named), after.plans.get(named), deeds)


def reloaded(changes, trees, before: Seen, after: Seen):
    """The units whose own files come to something else, for which the manager is to reload."""
    one, other = (it.entries for it in trees)
    paths = {str(it) for it in {*one, *other} if one.get(it) != other.get(it)}

    def is_own(at, field):
        """Whether a field of a unit changes by its own files."""
        read = {it for seen in (before, after) if at in seen.units for it in seen.units[at].files()}
        return field not in EDGE_KINDS or field in OWN_KINDS or field in ORDER_KINDS and bool(read & paths)

    return [at for at, those in changes.items() if (has_files(before, at) or has_files(after, at)) and any(is_own(at, it.field) for it in those)]


def has_files(seen: Seen, name):
    """Whether files tell of a unit: its own, a mask, a link or drop-ins."""
    unit = seen.units.get(name)
    return unit is not None and (unit.status not in (UnitStatus.NOT_FOUND, UnitStatus.BUILT_IN) or bool(unit.dropins))


def restarted(changes, before: Seen, after: Seen):
    """The units that are there before and afterwards and whose own section changes: what runs keeps the old values until it is restarted."""
    both = [at for at in changes if is_loaded(before, at) and is_loaded(after, at)]
    sections = {at: after.units[at].section for at in both}
    return [at for at in both if sections[at] not in WITHOUT_RESTART and any(it.field.startswith(f"{sections[at]}.") for it in changes[at])]


def is_loaded(seen: Seen, name):
    """Whether a unit has a file."""
    return name in seen.units and seen.units[name].status is UnitStatus.LOADED


def pulled(seen: Seen, target):
    """The units that have a file and that a target starts; nothing where it has no plan."""
    planned = seen.plans.get(target)
    return {it for it in planned.start if is_loaded(seen, it)} if isinstance(planned, Plan) else None


def stopped(before: Seen, after: Seen, target):
    """The units that have no file any more, and those that the target started and starts no more."""
    names = {name for it in after.units.values() if it.is_loaded() for name in it.names}
    gone = {it for it in before.units if is_loaded(before, it) and it not in names}
    one, other = pulled(before, target), pulled(after, target)
    return sorted(gone | (one - other if one is not None and other is not None else set()))


def started(before: Seen, after: Seen, target):
    """The units that the target starts and didn't start."""
    one, other = pulled(before, target), pulled(after, target)
    return [it for it in after.plans[target].start if it in other - one] if one is not None and other is not None else []
