"""Judges, explains, reads and rehearses grain position records, by the proved library.

    import gcr

    record = open("records/stale-read.gcr", "rb").read()
    print(gcr.judge(record))                         # broken 0 2
    print(gcr.explain(record, "CausalVisibility"))   # [1, 2]

A record is bytes. One that is refused raises Refusal, which has the number, the place and the sentence. Predicates and
models are named by number or by name. Calls may run on several threads at once; each takes up to 262,144 bytes of
stack, which a thread has unless threading.stack_size made it smaller.

This module needs the standard library and the shared object libgcr.so of its own version. That is looked for in the
folder that RIZHAKKON_LIB names, beside this file, in ../lib, in the package or clone that this file is in, and then
where the system's loader looks.
"""

import ctypes
import enum
import operator
import os
from collections.abc import Mapping
from dataclasses import dataclass
from pathlib import Path
from typing import Callable, Dict, FrozenSet, List, NoReturn, Optional, Union

VERSION = "0.8.0"
EVENTS_MOST = 384  # events of the longest record
RECORD_MOST = 33280  # bytes of the longest record
SCRIPT_MOST = 32768  # bytes of the longest script
OPENINGS_BYTES = 132
_EXPLAIN_ENTRIES = EVENTS_MOST
_ROW_WORDS = EVENTS_MOST // 64
_WORK_WORDS = _ROW_WORDS * EVENTS_MOST
_UNWRITTEN = 2**64 - 1  # of a word that is about to be written: anything but met

Bytes = Union[bytes, bytearray, memoryview]
Which = Union[int, str]


def _folders() -> List[Path]:
    here = Path(__file__).resolve().parent
    named = os.environ.get("RIZHAKKON_LIB")
    root = here.parent.parent
    own = [here, here.parent / "lib", root / "lib", root / "target/staticlib"]
    return ([Path(named)] if named else []) + own


def _load() -> ctypes.CDLL:
    found = [folder / "libgcr.so" for folder in _folders() if (folder / "libgcr.so").exists()]
    try:
        library = ctypes.CDLL(str(found[0]) if found else "libgcr.so")
        _declare(library)
    except (OSError, AttributeError) as error:
        looked = ", ".join(str(folder) for folder in _folders())
        told = f"no libgcr.so of version {VERSION} is in {looked}, or where the loader looks: {error}"
        raise ImportError(told) from error
    version = library.gcr_version().decode()
    if version != VERSION:
        raise ImportError(f"{library._name} is of version {version}, and {__file__} of {VERSION}")
    return library


def _declare(library: ctypes.CDLL) -> None:
    """The calls and words of gcr.h. All pointers to bytes are lent as c_char_p."""
    number, size, data = ctypes.c_uint32, ctypes.c_size_t, ctypes.c_char_p
    words, entries = ctypes.POINTER(ctypes.c_uint64), ctypes.POINTER(ctypes.c_uint16)
    answer, text, numbers = ctypes.c_uint64, ctypes.c_char_p, ctypes.POINTER(number)
    calls = {
        "gcr_read": (answer, data, size, words, size),
        "gcr_judge_model": (answer, number, data, size),
        "gcr_judge_predicate": (answer, number, data, size),
        "gcr_judge_all": (answer, data, size, words, size),
        "gcr_explain": (answer, number, data, size, entries, size),
        "gcr_rehearse": (answer, number, data, size, data, size, data, size, data, size),
        "gcr_version": (text,),
        "gcr_refusal_sentence": (text, number),
        "gcr_predicate_name": (text, number),
        "gcr_model_name": (text, number),
        "gcr_model_predicates": (numbers, number),
    }
    for name, (result, *arguments) in calls.items():
        call = getattr(library, name)
        call.restype, call.argtypes = result, arguments


_library = _load()


def version() -> str:
    """The version of the library, which is this module's too."""
    return _library.gcr_version().decode()


class Refusal(Exception):
    """Why something was not judged, explained, read, rehearsed or done."""

    number: int  # of the question that got the first no
    place: int  # the block, slot or event that it is about, and 0 where it is about none

    def __init__(self, number: int, place: int = 0) -> None:
        super().__init__(number, place)
        self.number, self.place = number, place

    @property
    def sentence(self) -> str:
        """The refusal in plain words."""
        said = _library.gcr_refusal_sentence(self.number)
        return said.decode() if said else "The scope has no such refusal number."

    def __str__(self) -> str:
        return f"refused {self.number} {self.place}: {self.sentence}"


def _letters(name: str) -> str:
    return "".join(letter for letter in name.lower() if letter.isalnum())


class _Numbered(enum.IntEnum):
    """Numbers with the names that the library has for them."""

    @classmethod
    def of(cls, which: Which) -> "_Numbered":
        """From its number or its name, in any writing: "real-time causal" is Model.RealTimeCausal. A number that is
        none raises Refusal, and a name that is none ValueError."""
        if isinstance(which, _Numbered) and not isinstance(which, cls):
            raise TypeError(f"{which!r} is no {cls.__name__}")
        if isinstance(which, str):
            found = [each for each in cls if _letters(which) in (_letters(each.name), str(each.value))]
            unknown: Exception = ValueError(f"{which!r} is none of {', '.join(each.name for each in cls)}")
        else:
            found = [each for each in cls if each.value == operator.index(which)]
            unknown = Refusal(2)
        if not found:
            raise unknown
        return found[0]

    def __str__(self) -> str:
        return self.name

    def __format__(self, form: str) -> str:
        return format(self.name, form)


class _Listed(_Numbered):
    @property
    def predicates(self) -> list:
        """The predicates that it asks, in its order: it is met where all are, and breaks at the first that breaks."""
        listed, found = _library.gcr_model_predicates(self.value), []
        while listed[len(found)]:
            found.append(Predicate(listed[len(found)]))
        return found


def _names(name_of: Callable[[int], bytes]) -> Dict[str, int]:
    return {name_of(number).decode(): number for number in range(1, 14)}


Predicate = _Numbered("Predicate", _names(_library.gcr_predicate_name), module=__name__)
Model = _Listed("Model", _names(_library.gcr_model_name), module=__name__)


@dataclass(frozen=True)
class Verdict:
    """What the judge finds of a record: met, or broken first at the pair (a, b) of events. True where it is met."""

    a: Optional[int] = None
    b: Optional[int] = None

    @property
    def met(self) -> bool:
        return self.a is None

    def __bool__(self) -> bool:
        return self.met

    def __str__(self) -> str:
        return "met" if self.met else f"broken {self.a} {self.b}"


def _lent(record: Bytes) -> bytes:
    """The bytes themselves, which nobody changes while the library looks at them."""
    return bytes(memoryview(record))


def _refuse(answer: int) -> NoReturn:
    raise Refusal(answer >> 10 & 1023, answer & 1023)


def _verdict(answer: int) -> Verdict:
    if answer >> 20 > 1:
        _refuse(answer)
    return Verdict(answer >> 10 & 1023, answer & 1023) if answer >> 20 else Verdict()


def judge(record: Bytes, model: Which = 4) -> Verdict:
    """Judges a model, without another Causal. A break is the pair of the first broken predicate of Model.predicates."""
    record = _lent(record)
    return _verdict(_library.gcr_judge_model(Model.of(model), record, len(record)))


def judge_predicate(record: Bytes, predicate: Which) -> Verdict:
    """Judges one predicate."""
    record = _lent(record)
    return _verdict(_library.gcr_judge_predicate(Predicate.of(predicate), record, len(record)))


def judge_all(record: Bytes) -> Dict[int, Verdict]:
    """Judges all predicates, reading the record once: the verdict of each Predicate, by rising number."""
    record, count = _lent(record), len(Predicate)
    words = (ctypes.c_uint64 * count)(*[_UNWRITTEN] * count)
    answer = _library.gcr_judge_all(record, len(record), words, count)
    if answer:
        _refuse(answer)
    return {predicate: _verdict(word) for predicate, word in zip(Predicate, words)}


def explain(record: Bytes, predicate: Which) -> List[int]:
    """Tells what happened where a predicate is broken at (a, b): the events on the way from a, b last. One that is met
    is refused by 42."""
    record, events = _lent(record), (ctypes.c_uint16 * _EXPLAIN_ENTRIES)()
    answer = _library.gcr_explain(Predicate.of(predicate), record, len(record), events, _EXPLAIN_ENTRIES)
    if answer >> 20:
        _refuse(answer)
    return list(events[:answer])


def read(record: Bytes) -> List[FrozenSet[int]]:
    """Asks the questions of a record, and does not judge it: of each event the events that it sees."""
    record, work = _lent(record), (ctypes.c_uint64 * _WORK_WORDS)()
    answer = _library.gcr_read(record, len(record), work, _WORK_WORDS)
    if answer:
        _refuse(answer)
    events = range(int.from_bytes(record[4:6], "little"))
    return [frozenset(a for a in events if work[_ROW_WORDS * b + a // 64] >> a % 64 & 1) for b in events]


def _field(what: str, number: int, size: int) -> bytes:
    """A number as a field of so many bytes."""
    if not 0 <= operator.index(number) < 256**size:
        raise ValueError(f"{what} {number} is not 0 to {256**size - 1:,}")
    return number.to_bytes(size, "little")


def put(site: int, object: int, value: int) -> bytes:
    """The call that puts a value into an object at a site. Calls are joined to a script by +."""
    return b"\1" + _field("site", site, 1) + _field("object", object, 1) + b"\0" + _field("value", value, 4)


def get(site: int, object: int) -> bytes:
    """The call that gets an object's value at a site."""
    return b"\2" + _field("site", site, 1) + _field("object", object, 1) + bytes(5)


def deliver(site: int, event: int) -> bytes:
    """The call that delivers to a site the put that became this event."""
    return b"\3" + _field("site", site, 1) + bytes(2) + _field("event", event, 2) + bytes(2)


def close() -> bytes:
    """The call that closes trading: it delivers to each site every put that it lacks."""
    return b"\4" + bytes(7)


def _openings(openings: Union[Bytes, Mapping]) -> bytes:
    """Figures by object, as the bytes that a rehearsal is lent; bytes as they are."""
    if not isinstance(openings, Mapping):
        return _lent(openings)
    lent = bytearray(OPENINGS_BYTES)
    for object, value in openings.items():
        if not 0 <= operator.index(object) < 32:
            raise ValueError(f"object {object} is not 0 to 31, and has no opening")
        lent[object // 8] |= 1 << object % 8
        lent[4 + 4 * object : 8 + 4 * object] = _field("opening", value, 4)
    return bytes(lent)


@dataclass(frozen=True)
class Answer:
    """The answer of one call of a script: what refused it, else what is told of a call of its kind."""

    refusal: Optional[Refusal] = None
    event: Optional[int] = None  # that a put or a get became
    value: Optional[int] = None  # that a get found, if it found one
    copies: Optional[int] = None  # that a close delivered


def _answer(call: bytes, answer: bytes) -> Answer:
    """Bytes 1 and 4 to 7 mean one thing of a get and another of a close, so the call is looked at too."""
    event, rest = int.from_bytes(answer[2:4], "little"), int.from_bytes(answer[4:], "little")
    if answer[0]:
        return Answer(refusal=Refusal(answer[0]))
    if call[0] == 2:
        return Answer(event=event, value=rest if answer[1] else None)
    return {1: Answer(event=event), 3: Answer(), 4: Answer(copies=rest)}[call[0]]


@dataclass(frozen=True)
class Rehearsed:
    """What a rehearsal has come to."""

    record: bytes  # of what happened
    outstanding: int  # copies still on the lines: the pairs of a put and a site that lacks it
    answers: List[Answer]  # of the calls, in their order


def rehearse(sites: int, openings: Union[Bytes, Mapping], script: Bytes) -> Rehearsed:
    """Runs a script over a store of so many sites, at each of which objects start with their openings: figures by
    object, as {5: 300}, or 132 bytes. A call that is refused changes nothing, and the script goes on."""
    lent, script = _openings(openings), _lent(script)
    sites = sites if 0 <= operator.index(sites) < 2**32 else 0  # 0 is refused too
    record, answers = ctypes.create_string_buffer(RECORD_MOST), ctypes.create_string_buffer(len(script) + 1)
    buffers = (record, RECORD_MOST, answers, len(script))
    done = _library.gcr_rehearse(sites, lent, len(lent), script, len(script), *buffers)
    if done & 255:
        raise Refusal(done & 255)
    calls = range(0, len(script), 8)
    told = [_answer(script[at : at + 8], answers.raw[at : at + 8]) for at in calls]
    return Rehearsed(record.raw[: done >> 8 & 65535], done >> 24, told)
