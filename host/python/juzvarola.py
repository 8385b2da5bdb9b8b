"""Juzvarola from Python: plans the stops and part changes of a filling line or of a hall of lines, judges such plans, changes parts as late as
given stops allow, carries on from a log, writes job texts and counts.

Every answer is that of the proved library, libjuzvarola.so.0, called by ctypes; nothing else is needed. The texts are those of
juzvarola-job(5), juzvarola-plan(5) and juzvarola-hall(5), the results those of juzvarola(3).

    import juzvarola
    planned = juzvarola.plan(open("job.txt", "rb").read())
    if planned.result is juzvarola.Result.OK:
        for stop in planned.plan.stops:
            print(stop.step, stop.parts)

Calls may be made on several threads at once: the interpreter runs on while the library works. A call needs less than 1.5 MB of stack, hall less
than 3.5 MB; where threads have less than 4 MB, say threading.stack_size(4 << 20) before starting them.

The library is the file that the environment's JUZVAROLA_LIBRARY names, or the one that was installed with this module, or the one that the
system finds.
"""

from __future__ import annotations

import ctypes
import os
from dataclasses import dataclass
from enum import IntEnum
from pathlib import Path
from typing import Iterable, Optional, Sequence, Tuple, Union

__all__ = [
    "Carried",
    "Count",
    "Fault",
    "Form",
    "Hall",
    "Latest",
    "Plan",
    "Planned",
    "Result",
    "Stop",
    "Verdict",
    "Written",
    "carry",
    "count",
    "hall",
    "judge",
    "latest",
    "optimum",
    "plan",
    "version",
    "write",
]

#: The version of the library's interface that this module is made for.
VERSION: Tuple[int, int, int] = (0, 13, 0)

_NAME = "libjuzvarola.so.0"
_ROOM = 16_384
_WRITE_ROOM = 40_960
_MOST = 4_000_000_000

Text = Union[bytes, bytearray, str]


class Result(IntEnum):
    """The result numbers by name."""

    OK = 0
    TOO_LONG = 1
    BAD_LINE = 2
    OUT_OF_RANGE = 3
    NOT_RISING = 4
    LEFT_TOO_LONG = 5
    NO_PLAN = 6
    CUT_SHORT = 7
    NO_ROOM = 8
    BAD_STOP = 9
    NOT_KEPT = 10
    WRONG_COST = 11
    BAD_HOLDER = 12
    BAD_BAND = 13
    UNLIKE = 14


@dataclass(frozen=True)
class Fault:
    """A text at fault: which (1 the job or the hall, 2 the plan or the log), the line counted from 1 (0 for none), and the line itself."""

    text: int
    line: int
    shown: bytes


@dataclass(frozen=True)
class Stop:
    """A stop: its step, and the parts changed at it, counted from 1."""

    step: int
    parts: Tuple[int, ...]


@dataclass(frozen=True)
class Plan:
    """A plan: what it costs, its stops, and its text for the judge."""

    cost: int
    stops: Tuple[Stop, ...]
    text: bytes

    @staticmethod
    def parse(text: Text) -> "Plan":
        """The plan of a text that the planner wrote or the judge accepted; an empty one is the plan of doing nothing."""
        data = _bytes(text)
        cost, stops = 0, []
        for key, value in _pairs(data):
            if key == "cost":
                cost = value
            elif key == "stop":
                stops.append((value, []))
            elif key == "part" and stops:
                stops[-1][1].append(value)
        return Plan(cost, tuple(Stop(step, tuple(parts)) for step, parts in stops), data)


@dataclass(frozen=True)
class Planned:
    """The planner's answer. With OK the plan is the cheapest of all; with CUT_SHORT it is the best found, if any; no plan costs less than floor.

    Where prices are bands, all this is at their high ends, and cost_low is what the plan costs at the low ones.
    """

    result: Result
    nodes: Optional[int]
    floor: Optional[int]
    plan: Optional[Plan]
    fault: Optional[Fault]
    lines: bytes
    cost_low: Optional[int] = None


@dataclass(frozen=True)
class Hall:
    """The hall planner's answer: what the plans cost together, calls of the crew included, and a plan for each line. With OK no plans cost less; with
    CUT_SHORT they are the best found, if any. UNLIKE is a job that does not fit the hall's first, or takes the hall past its limits."""

    result: Result
    nodes: Optional[int]
    floor: Optional[int]
    cost: Optional[int]
    plans: Tuple[Plan, ...]
    fault: Optional[Fault]
    lines: bytes


@dataclass(frozen=True)
class Verdict:
    """The judge's answer: the true cost with OK and WRONG_COST; the lowest part that is not kept and the step that it was due by with NOT_KEPT."""

    result: Result
    cost: Optional[int]
    part: Optional[int]
    due: Optional[int]
    fault: Optional[Fault]
    lines: bytes


@dataclass(frozen=True)
class Latest:
    """The habit's answer: with OK the plan with all the stops given, each part changed at the last one that still serves; NO_PLAN where they can't
    keep some part. Where prices are bands, cost_low is what the plan costs at their low ends."""

    result: Result
    plan: Optional[Plan]
    fault: Optional[Fault]
    lines: bytes
    cost_low: Optional[int] = None


@dataclass(frozen=True)
class Carried:
    """The answer to a work log: with OK the text of the job that is left; the true cost with WRONG_COST; with NOT_KEPT the lowest part that had used more
    than its life, and the step that it was due by."""

    result: Result
    text: Optional[bytes]
    cost: Optional[int]
    part: Optional[int]
    due: Optional[int]
    fault: Optional[Fault]


@dataclass(frozen=True)
class Count:
    """The count: no walk of the job has more nodes, where or_more is false. None for a job with a fault or a holder."""

    result: Result
    count: Optional[int]
    or_more: bool
    fault: Optional[Fault]


@dataclass(frozen=True)
class Written:
    """The writer's answer: the job text with OK, else the line that would have held the fault."""

    result: Result
    text: Optional[bytes]
    line: int


@dataclass(frozen=True)
class Form:
    """An order form: the facts of a job as lists of numbers, in the job text's order; the prices part by part, one for each opening.

    covered has a 1 for each part whose lines of removal stand, else 0; where it is left out no part has them. ruled has a 1 for each part whose
    prices are given by a rule, else 0; where it is left out none are. bases, drops and leasts have one for each such part, and prices none.
    banded has a 1 for each of the prices that is the high end of a band, else 0; where it is left out none is. lows has the low ends.
    """

    horizon: int
    openings: Sequence[int]
    fees: Sequence[int]
    lives: Sequence[int]
    lefts: Sequence[int]
    prices: Sequence[int]
    idles: Sequence[int] = ()
    covered: Optional[Sequence[int]] = None
    removals: Sequence[int] = ()
    insides: Sequence[int] = ()
    holders: Sequence[int] = ()
    ruled: Optional[Sequence[int]] = None
    bases: Sequence[int] = ()
    drops: Sequence[int] = ()
    leasts: Sequence[int] = ()
    banded: Optional[Sequence[int]] = None
    lows: Sequence[int] = ()


class _Answer(ctypes.Structure):
    _fields_ = [
        ("result", ctypes.c_uint32),
        ("text", ctypes.c_uint32),
        ("line", ctypes.c_uint32),
        ("length", ctypes.c_size_t),
        ("fault_start", ctypes.c_size_t),
        ("fault_length", ctypes.c_size_t),
    ]


class _Counted(ctypes.Structure):
    _fields_ = [
        ("result", ctypes.c_uint32),
        ("text", ctypes.c_uint32),
        ("line", ctypes.c_uint32),
        ("count", ctypes.c_uint32),
        ("fault_start", ctypes.c_size_t),
        ("fault_length", ctypes.c_size_t),
    ]


def _load() -> ctypes.CDLL:
    """The library, which must be of this module's version."""
    named = os.environ.get("JUZVAROLA_LIBRARY")
    beside = Path(__file__).resolve().parents[2] / _NAME if len(Path(__file__).resolve().parents) > 2 else None
    library = ctypes.CDLL(named or (str(beside) if beside and beside.is_file() else _NAME))
    own = ctypes.c_uint32(VERSION[0] * 1_000_000 + VERSION[1] * 1000 + VERSION[2]).value
    library.juzvarola_version.restype = ctypes.c_uint32
    library.juzvarola_version.argtypes = []
    found = library.juzvarola_version()
    if found != own:
        dotted = f"{found // 1_000_000}.{found // 1000 % 1000}.{found % 1000}"
        raise ImportError(f"libjuzvarola is version {dotted}, and this module is made for {'.'.join(map(str, VERSION))}")
    text, numbers = (ctypes.c_char_p, ctypes.c_size_t), (ctypes.POINTER(ctypes.c_uint32), ctypes.c_size_t)
    out = (ctypes.c_void_p, ctypes.c_size_t)
    for name, result, words in (
        ("juzvarola_plan", _Answer, text + (ctypes.c_uint64,) + out),
        ("juzvarola_optimum", _Answer, text + (ctypes.c_uint64,) + out),
        ("juzvarola_hall", _Answer, text + (ctypes.c_uint64,) + out),
        ("juzvarola_judge", _Answer, text + text + out),
        ("juzvarola_latest", _Answer, text + text + out),
        ("juzvarola_carry", _Answer, text + text + out),
        ("juzvarola_write", _Answer, (ctypes.c_uint32,) + numbers * 16 + out),
        ("juzvarola_count", _Counted, text),
    ):
        call = getattr(library, name)
        call.restype, call.argtypes = result, words
    return library


_library = _load()


def _bytes(text: Text) -> bytes:
    """A text as bytes."""
    return text.encode() if isinstance(text, str) else bytes(text)


def _plan_text(plan: Union[Text, Plan]) -> bytes:
    """The text of a plan."""
    return plan.text if isinstance(plan, Plan) else _bytes(plan)


def _pairs(data: bytes) -> Iterable[Tuple[str, int]]:
    """The lines of an answer or of an accepted text."""
    for line in data.decode("ascii").splitlines():
        key, _, value = line.partition("=")
        yield key, int(value)


def _fault(answer: Union[_Answer, _Counted], job: bytes, second: bytes = b"") -> Optional[Fault]:
    """The line at fault, cut out of its text: the job's, or the plan's or log's."""
    if answer.text == 0:
        return None
    at_fault = job if answer.text == 1 else second
    return Fault(answer.text, answer.line, at_fault[answer.fault_start : answer.fault_start + answer.fault_length])


def version() -> Tuple[int, int, int]:
    """The library's version."""
    number = _library.juzvarola_version()
    return number // 1_000_000, number // 1000 % 1000, number % 1000


def _plan_in(lines: bytes) -> Optional[Plan]:
    """The plan that an answer's lines end with, if any."""
    start = lines.find(b"\ncost=") + 1
    return Plan.parse(lines[start:]) if start > 0 else None


def plan(job: Text, walk: int = _MOST) -> Planned:
    """Plans a job, walking at most so many nodes; a number above 4000000000 counts as that."""
    return _planned(_library.juzvarola_plan, job, walk)


def optimum(job: Text, walk: int = _MOST) -> Planned:
    """The cheapest plan of a job by walks with shares, each of at most so many nodes: the planner's own plan, also where its walk would be too long. No
    nodes are said, and a floor only with CUT_SHORT."""
    return _planned(_library.juzvarola_optimum, job, walk)


def _planned(call, job: Text, walk: int) -> Planned:
    """What a call that plans a job answers."""
    data, out = _bytes(job), ctypes.create_string_buffer(_ROOM)
    answer = call(data, len(data), min(walk, _MOST), out, _ROOM)
    lines = out.raw[: answer.length]
    fault = _fault(answer, data)
    values = dict(_pairs(lines)) if fault is None else {}
    return Planned(Result(answer.result), values.get("nodes"), values.get("floor"), _plan_in(lines), fault, lines, values.get("costlow"))


def hall(text: Text, walk: int = _MOST) -> Hall:
    """Plans the lines of a hall that pay one crew, walking at most so many nodes: a text of `machines`, `call` and the lines' job texts."""
    data, out = _bytes(text), ctypes.create_string_buffer(_ROOM)
    answer = _library.juzvarola_hall(data, len(data), min(walk, _MOST), out, _ROOM)
    lines = out.raw[: answer.length]
    fault = _fault(answer, data)
    pairs = list(_pairs(lines)) if fault is None else []
    first = dict(reversed(pairs))
    # The first cost is the hall's; each further one begins a line's plan.
    plans = [Plan.parse(b"cost=" + text) for text in lines.split(b"\ncost=")[2:]]
    plans = tuple(Plan(plan.cost, plan.stops, plan.text if plan.text.endswith(b"\n") else plan.text + b"\n") for plan in plans)
    return Hall(Result(answer.result), first.get("nodes"), first.get("floor"), first.get("cost"), plans, fault, lines)


def judge(job: Text, plan: Union[Text, Plan]) -> Verdict:
    """Judges a plan of a job, given as a text or as one that the planner handed over. An empty text is the plan of doing nothing."""
    data, weighed, out = _bytes(job), _plan_text(plan), ctypes.create_string_buffer(_ROOM)
    answer = _library.juzvarola_judge(data, len(data), weighed, len(weighed), out, _ROOM)
    lines = out.raw[: answer.length]
    fault = _fault(answer, data, weighed)
    values = dict(_pairs(lines)) if fault is None else {}
    return Verdict(Result(answer.result), values.get("cost"), values.get("part"), values.get("due"), fault, lines)


def latest(job: Text, plan: Union[Text, Plan]) -> Latest:
    """Changes each part of a job at the last stop of a plan that still serves. Of the plan, a text or one handed over, only the stops count; an
    empty text means no stops."""
    data, given, out = _bytes(job), _plan_text(plan), ctypes.create_string_buffer(_ROOM)
    answer = _library.juzvarola_latest(data, len(data), given, len(given), out, _ROOM)
    lines = out.raw[: answer.length]
    fault = _fault(answer, data, given)
    low = dict(_pairs(lines)).get("costlow") if fault is None else None
    return Latest(Result(answer.result), _plan_in(lines), fault, lines, low)


def carry(job: Text, log: Text) -> Carried:
    """Carries on from a job by a work log: a line step, and then the lines of a plan, with what was done up to that step at its true cost."""
    data, done, out = _bytes(job), _bytes(log), ctypes.create_string_buffer(_WRITE_ROOM)
    answer = _library.juzvarola_carry(data, len(data), done, len(done), out, _WRITE_ROOM)
    lines = out.raw[: answer.length]
    if answer.result == 0:
        return Carried(Result.OK, lines, None, None, None, None)
    fault = _fault(answer, data, done)
    values = dict(_pairs(lines)) if fault is None else {}
    return Carried(Result(answer.result), None, values.get("cost"), values.get("part"), values.get("due"), fault)


def write(form: Form) -> Written:
    """Writes the job text of a form. A number that 32 bits can't hold raises ValueError."""
    none = [0] * len(form.lives)
    covers = (none if form.covered is None else form.covered, form.removals, form.insides, form.holders)
    rules = (none if form.ruled is None else form.ruled, form.bases, form.drops, form.leasts)
    bands = ([0] * len(form.prices) if form.banded is None else form.banded, form.lows)
    words: list = [_number(form.horizon)]
    for own in (form.idles, form.openings, form.fees, form.lives, form.lefts, *covers, *rules, *bands, form.prices):
        words.extend(_numbers(own))
    out = ctypes.create_string_buffer(_WRITE_ROOM)
    answer = _library.juzvarola_write(*words, out, _WRITE_ROOM)
    text = out.raw[: answer.length] if answer.result == 0 else None
    return Written(Result(answer.result), text, answer.line)


def count(job: Text) -> Count:
    """Says how long the walk of a job may become, without walking."""
    data = _bytes(job)
    answer = _library.juzvarola_count(data, len(data))
    counted = answer.count if answer.result == 0 else None
    return Count(Result(answer.result), counted, answer.count >= _MOST, _fault(answer, data))


def _number(number: int) -> int:
    """A number that 32 bits hold: ctypes would cut others without a word."""
    if not 0 <= number < 1 << 32:
        raise ValueError(f"{number} is not a number from 0 to {(1 << 32) - 1}")
    return number


def _numbers(numbers: Sequence[int]) -> Tuple[ctypes.Array, int]:
    """A list for the library; its pointer is not null, also where it is empty."""
    values = [_number(number) for number in numbers]
    return (ctypes.c_uint32 * max(len(values), 1))(*values), len(values)
