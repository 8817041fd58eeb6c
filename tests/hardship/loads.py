"""Loads and graphs of stores that are refused memory: the lines of worked_threads that aren't of nodes."""
from cases import Case
from lines import answers_below, is_silent, name_of
from nodes import CALLS
from programs import first_line, judge_in_turn

PROGRAM = "worked_threads"
REFUSED = b"out of memory"
ASKED = b"the gate was asked for"


def workers_of(answer):
    """The words in front of an answer that is one of workers; none at any other."""
    words, found, _ = answer.partition(b" workers: ")
    return words + found if found else None


def is_right(answer, said):
    """Whether a line is the right one, or says of workers that they were refused memory."""
    workers = workers_of(answer)
    return said == answer or (workers is not None and said == workers + REFUSED)


def is_load_of_workers(answer, said):
    """Whether a line on workers is right where the load by one thread was refused: there was none to compare with."""
    workers = workers_of(answer)
    return said in (answer, workers + b"a load") and not said.endswith(b"the same")


def askings(line):
    """How often a gate was asked for each piece."""
    return {number: int(often) for number, often in (pair.split(b":") for pair in line[len(ASKED) :].split())}


def is_asked_at_most(answer, said):
    """Whether a line says that a gate was asked as often for each piece as another says, or less often."""
    most = askings(answer)
    return said.startswith(ASKED) and all(often <= most.get(number, 0) for number, often in askings(said).items())


def is_allowed(answers, said):
    """Whether these lines are the right ones, or say where memory was refused."""
    if said == [b"memory"]:
        return True
    if said and answers[-1].startswith(ASKED):
        return is_asked_at_most(answers[-1], said[-1]) and is_allowed(answers[:-1], said[:-1])
    if said and said[0] == REFUSED:
        of_workers = [answer for answer in answers if workers_of(answer) is not None]
        return len(of_workers) == len(said) - 1 and all(map(is_load_of_workers, of_workers, said[1:]))
    return len(said) == len(answers) and all(map(is_right, answers, said))


def judge(tally, place, run, line, answers):
    """Whether a run gave the right answers, or said that memory was refused."""
    tally.note(run)
    told = run.answers.split(b"\n")
    said = [text[2:] for text in told[1:-1]]
    is_told = run.status == 0 and told[0] == line and told[-1] == b""
    if is_told and said == answers:
        tally.whole += bool(run.refusals)
    elif run.refusals and is_told and is_allowed(answers, said):
        tally.told += 1
    elif is_silent(run):
        tally.told += 1
    else:
        tally.wrong(place, f"status {run.status}: {said[:3]} {first_line(run.answers)}")


def once(bench, tally, line, answers):
    """One request is refused."""
    judge_in_turn(judge, bench, tally, PROGRAM, line + b"\n", line, answers)


def cases():
    """All lines but those at whose gate two workers wait for one another."""
    for line, answers in answers_below(PROGRAM):
        call = line.split(b" ", 1)[0].decode()
        if call != "meet" and call not in CALLS:
            yield Case(f"loads: {call}", name_of(line), once, (line, answers), weight=100, refuses=True)
