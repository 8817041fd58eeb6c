"""What `fleet`'s command line takes, read off its parser, and made into a man page and into completions for shells."""
import re
from dataclasses import dataclass
from typing import Tuple

# Words behind which a file or a folder is named; others are names that aren't looked up.
AT_FILES = ("ROOT", "HOST=ROOT", "FILE", "FOLDER", "SCRIPT")


@dataclass(frozen=True)
class Word:
    """An option by its names, or a word by its place: what stands for its value, if it has one, whether it can be left out and said again,
    the values that it can have where these are few, and what is told of it."""

    names: Tuple[str, ...]
    value: str
    is_optional: bool
    is_many: bool
    choices: Tuple[str, ...]
    about: str

    def is_file(self):
        """Whether its value names a file or a folder."""
        return self.value in AT_FILES

    def usage(self):
        """It in a line of usage."""
        shown = " ".join(filter(None, [self.names[-1] if self.names else "", "|".join(self.choices) or self.value]))
        return f"{f'[{shown}]' if self.is_optional else shown}{'..' if self.is_many else ''}"


@dataclass(frozen=True)
class Verb:
    """A verb: what it does, its words by place, and its options."""

    name: str
    about: str
    description: str
    places: Tuple[Word, ...]
    options: Tuple[Word, ...]


def word_of(action):
    """A word of the command line, of what reads it."""
    is_many = action.nargs in ("*", "+") or type(action).__name__ == "_AppendAction"
    is_flag = action.nargs == 0
    value = "" if is_flag else " ".join([action.metavar] if isinstance(action.metavar, str) else action.metavar or [action.dest.upper()])
    is_optional = bool(action.option_strings) or action.nargs in ("*", "?")
    choices = () if is_flag else tuple(action.choices or ())
    return Word(tuple(action.option_strings), value, is_optional, is_many, choices, (action.help or "").replace("%%", "%"))


def verbs_of(parser):
    """The verbs of a parser, in its order."""
    found = []
    group = next(it for it in parser._actions if type(it).__name__ == "_SubParsersAction")
    abouts = {it.dest: it.help for it in group._choices_actions}
    for name, made in group.choices.items():
        words = [word_of(it) for it in made._actions]
        places = tuple(it for it in words if not it.names)
        found.append(Verb(name, abouts[name], made.description, places, tuple(it for it in words if it.names)))
    return found


# ---- the man page


def roff(text):
    """A text for a man page."""
    spelled = text.replace("\\", "\\e").replace("-", "\\-")
    return re.sub(r"(?m)^([.'])", r"\\&\1", spelled)


def man_words(words):
    """The lines on words of a verb."""
    for it in words:
        head = ", ".join(it.names) or it.value
        value = "|".join(it.choices) or it.value if it.names else ""
        yield ".TP"
        yield f".B {roff(head)}" + (f" \\fI{roff(value)}\\fR" if value else "")
        yield roff(it.about) or "\\&"


def man_page(parser, version):
    """The man page."""
    lines = [f'.TH FLEET 1 "" "fleet {version}" "Unit files of a fleet"', ".SH NAME", f"fleet \\- {roff(ONE_LINE)}", ".SH SYNOPSIS",
             ".B fleet", ".I VERB", "\\&..", ".SH DESCRIPTION", *map(roff, parser.description.split("\n")), ".SH VERBS"]
    for verb in verbs_of(parser):
        usage = " ".join(it.usage() for it in (*verb.options[1:], *verb.places))
        lines += [f".SS fleet {verb.name}", f"fleet {verb.name} {roff(usage)}", ".PP", roff(verb.description)]
        lines += man_words([*verb.places, *verb.options[1:]])
    lines.append(".SH NOTES")
    lines += [roff(it) or ".PP" for it in parser.epilog.split("\n")]
    return "\n".join(lines) + "\n"


ONE_LINE = "the unit trees of a fleet's hosts, read into one store and asked of the proved program"

# ---- completions


def for_bash(parser):
    """The completion for bash."""
    verbs = verbs_of(parser)
    rows = []
    for verb in verbs:
        options = " ".join(name for it in verb.options for name in it.names if name.startswith("--"))
        rows.append(f'        "{verb.name} -"*) mapfile -t COMPREPLY < <(compgen -W "{options}" -- "$word");;')
    values = [(f"{verb.name} {name}", it) for verb in verbs for it in verb.options if it.value for name in it.names]
    behind = [f'        "{head}") {bash_value(it)};;' for head, it in values]
    return BASH % {"verbs": " ".join(it.name for it in verbs), "behind": "\n".join(behind), "options": "\n".join(rows)}


def bash_value(word):
    """What completes the value of an option in bash."""
    if word.choices:
        return f'mapfile -t COMPREPLY < <(compgen -W "{" ".join(word.choices)}" -- "$word")'
    return '_fleet_files "$word"' if word.is_file() else "return"


BASH = """# bash completion of fleet, made by tools/fleet_words
_fleet_files() {
    compopt -o filenames 2> /dev/null
    mapfile -t COMPREPLY < <(compgen -f -- "$1")
}

_fleet() {
    local word=${COMP_WORDS[COMP_CWORD]} before=${COMP_WORDS[COMP_CWORD - 1]} verb=${COMP_WORDS[1]}
    COMPREPLY=()
    if [ "$COMP_CWORD" -eq 1 ]; then
        mapfile -t COMPREPLY < <(compgen -W "%(verbs)s --help --version" -- "$word")
        return
    fi
    case "$verb $before" in
%(behind)s
    esac
    [ "${#COMPREPLY[@]}" -eq 0 ] || return
    case "$verb $word" in
%(options)s
        *) _fleet_files "$word";;
    esac
}

complete -F _fleet fleet
"""


def quoted(text):
    """A text in single quotes, for a shell."""
    return "'" + text.replace("'", "'\\''") + "'"


def for_zsh(parser):
    """The completion for zsh."""
    verbs = verbs_of(parser)
    lines = ["#compdef fleet", "# zsh completion of fleet, made by tools/fleet_words", "_fleet() {", "  local -a verbs", "  verbs=("]
    lines += [f"    {quoted(it.name + ':' + it.about)}" for it in verbs]
    lines += ["  )", "  if (( CURRENT == 2 )); then", "    _describe -t verbs verb verbs", "    return", "  fi", "  local verb=$words[2]",
              "  shift words", "  (( CURRENT-- ))", "  case $verb in"]
    for verb in verbs:
        lines += [f"    {verb.name})", "      _arguments \\"]
        lines += [f"        {quoted(zsh_option(it))} \\" for it in verb.options]
        lines += ["        '*:ROOT:_files'", "      ;;"]
    return "\n".join([*lines, "  esac", "}", '_fleet "$@"']) + "\n"


def zsh_option(word):
    """An option as zsh's _arguments takes it."""
    about = re.sub(r"([\[\]:\\])", r"\\\1", word.about)
    values = f"({' '.join(word.choices)})" if word.choices else "_files" if word.is_file() else " "
    behind = "".join(f":{it}:{values}" for it in word.value.split(" ") if it)
    return f"{'*' if word.is_many else ''}{word.names[-1]}[{about}]{behind}"


def for_fish(parser):
    """The completion for fish."""
    lines = ["# fish completion of fleet, made by tools/fleet_words"]
    for verb in verbs_of(parser):
        lines.append(f"complete -c fleet -n __fish_use_subcommand -f -a {verb.name} -d {quoted(verb.about)}")
        for it in verb.options:
            names = " ".join(f"-l {name[2:]}" if name.startswith("--") else f"-s {name[1:]}" for name in it.names)
            value = f" -x -a {quoted(' '.join(it.choices))}" if it.choices else " -r" if it.is_file() else " -x" if it.value else ""
            lines.append(f"complete -c fleet -n '__fish_seen_subcommand_from {verb.name}' {names}{value} -d {quoted(it.about)}")
    return "\n".join(lines) + "\n"


# Where each stands below a folder as /usr/local or ~/.local.
FILES = {
    "share/man/man1/fleet.1": man_page, "share/bash-completion/completions/fleet": lambda parser, _: for_bash(parser),
    "share/zsh/site-functions/_fleet": lambda parser, _: for_zsh(parser),
    "share/fish/vendor_completions.d/fleet.fish": lambda parser, _: for_fish(parser),
}
