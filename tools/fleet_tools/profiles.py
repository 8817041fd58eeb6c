"""The profiles by which the program is asked about units."""
from enum import Enum


class Profile(Enum):
    """What a unit has: what files say of it alone, or also what systemd's system manager adds."""

    FILES = "files"
    MANAGER = "manager"

    def head(self):
        """The line at the head of what is printed by this profile."""
        return f"# profile {self.value}: {WORDS[self]}"

    def clause(self):
        """The same as a clause behind what something is about."""
        return f"(profile {self.value})"


WORDS = {
    Profile.FILES: "what unit files say alone",
    Profile.MANAGER: "what unit files say and systemd's manager adds",
}

# Units of early boot that many others require and that a tree may lack, with what is told of them then.
EARLY = {
    "sysinit.target": "it is of systemd's own package, and most units require it by default, which --profile files leaves out",
    "basic.target": "it is of systemd's own package",
}


def hint(profile, name):
    """What helps a reader where a required unit isn't there, if something does."""
    return EARLY.get(name, "") if profile is Profile.MANAGER else ""
