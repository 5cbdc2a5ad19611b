"""The C library of pocsag for Python, by ctypes alone.

    from pocsag import Pocsag
    plan = Pocsag().plan(open("round.csv", "rb").read())
    plan.batches, plan.transmission, plan.certificate

A page file and a message are bytes, or a `str` that stands for its UTF-8; all else that is read is bytes: `bytes`, `bytearray`
or `memoryview`. An end, a reading or a form is one of the constants, or its name: `end=CLOSED` or `end="closed"`.

Each fault is an exception of its own, a `Fault`, named as in pocsag.h: `BadAddress` for POCSAG_BAD_ADDRESS. Its text is that
of the program, with the record and the place. A number that C cannot hold raises the fault that the library has for one that
it does not allow, and `ValueError` where it allows each.
"""

from __future__ import annotations

import ctypes
import operator
import os
import pathlib
from typing import Any, Callable, Dict, List, Literal, NamedTuple, Optional, Sequence, Tuple, Type, Union

__version__ = "1.2.1"
__all__ = ["Pocsag", "Plan", "Front", "Report", "Frame", "Frames", "Shown", "Explanation"]
__all__ += ["OPEN", "CLOSED", "IDLE", "IN_WORDS", "AS_JSON", "PLAIN", "REPAIRED", "CAPTURED", "SHOW_TEXT", "SHOW_LIST", "SHOW_DRAWING"]
__all__ += ["KINDS", "HEADER", "ALL_BATCHES", "FAULTS", "Fault", "BadEnd", "OutOfMemory", "BadRate", "BadLimit", "SearchLimit", "BadForm"]
__all__ += ["FirstPage", "PagesTooLarge", "BadHeader", "FieldCount", "BadAddress", "ReservedAddress", "BadKind", "MessageForTone"]
__all__ += ["EmptyMessage", "BadCharacter", "TooLong", "DuplicateAddress", "TooManyPages", "BadPayload", "NoPages", "NotCertificate"]
__all__ += ["CertVersion", "CertTruncated", "CertTrailing", "CertBadTag", "CertBadField", "CertTooDeep", "CertTooMany", "QuoteOpen"]
__all__ += ["QuoteInside", "QuoteFollowed", "ShortPreamble", "NoSync", "BadWord", "Orphan", "Truncated", "NoBatch", "CaptureTooLarge"]
__all__ += ["BadRows", "BadReading", "BadSamples", "BadPreamble", "TooLongForWav", "PagerBadAddress", "PagerReservedAddress"]
__all__ += ["Place", "PlanInfo", "FrontInfo", "CheckInfo", "ReportInfo", "FrameInfo", "FramesInfo"]

WORD, WIDE, SIZE = ctypes.c_uint32, ctypes.c_uint64, ctypes.c_size_t
GREATEST = 2**32 - 1
LIBRARY = "libpocsag.so.1"
OPEN, CLOSED, IDLE = 0, 1, 2
IN_WORDS, AS_JSON = 0, 1
PLAIN, REPAIRED, CAPTURED = 0, 1, 2
SHOW_TEXT, SHOW_LIST, SHOW_DRAWING = 0, 1, 2
KINDS = ("tone0", "tone1", "tone2", "tone3", "numeric", "alpha")
HEADER = b"address,kind,message\n"
ALL_BATCHES = (1, 2**64 - 1)

# What the calls take, for checkers of types; and the names of the numbers, in their order.
Data = Union[bytes, bytearray, memoryview]
PageFile = Union[str, Data]
Kind = Literal["tone0", "tone1", "tone2", "tone3", "numeric", "alpha"]
End = Union[int, Literal["open", "closed", "idle"]]
Reading = Union[int, Literal["plain", "repaired", "captured"]]
Form = Union[int, Literal["words", "json"]]
Picture = Union[int, Literal["text", "list", "drawing"]]
ENDS = ("open", "closed", "idle")
READINGS = ("plain", "repaired", "captured")
FORMS = ("words", "json")
PICTURES = ("text", "list", "drawing")


class Place(ctypes.Structure):
    """Where a fault stands, and what a search knew; each number is 0 where it says nothing."""

    record_number: int
    least: int
    found: int
    at: int
    _fields_ = [("record_number", WORD), ("least", WORD), ("found", WORD), ("at", WIDE)]


class PlanInfo(ctypes.Structure):
    place: Place
    _fields_ = [*((name, WORD) for name in ("pages", "codewords", "in_order", "batches", "bound")), ("place", Place)]


class FrontInfo(ctypes.Structure):
    place: Place
    _fields_ = [*((name, WORD) for name in ("pages", "left", "codewords", "in_order", "batches", "bound", "beyond")), ("place", Place)]


class CheckInfo(ctypes.Structure):
    end: int
    batches: int
    place: Place
    _fields_ = [("end", WORD), ("batches", WORD), ("place", Place)]


class ReportInfo(ctypes.Structure):
    place: Place
    _fields_ = [
        *((name, WORD) for name in ("pages", "codewords", "in_order", "batches", "bound")),
        *((name, WIDE) for name in ("idles", "bits", "airtime_ms")),
        ("place", Place),
    ]


class FrameInfo(ctypes.Structure):
    _fields_ = [("frame", WORD), ("pages", WORD), ("codewords", WIDE), ("room", WIDE)]


class FramesInfo(ctypes.Structure):
    frames: ctypes.Array[FrameInfo]
    batches: int
    bound: int
    place: Place
    _fields_ = [("frames", FrameInfo * 8), ("batches", WORD), ("bound", WORD), ("place", Place)]


class Plan(NamedTuple):
    """The transmission of a round, and the certificate that there are no fewer batches than `bound`."""

    transmission: bytes
    certificate: bytes
    pages: int
    codewords: int
    in_order: int
    batches: int
    bound: int


class Front(NamedTuple):
    """The same of the first pages of a round, with the page file of the others, and the certificate of one page more."""

    transmission: bytes
    certificate: bytes
    rest: Optional[bytes]
    why: Optional[bytes]
    pages: int
    left: int
    codewords: int
    in_order: int
    batches: int
    bound: int
    beyond: int


class Report(NamedTuple):
    """What a plan takes on the air."""

    pages: int
    codewords: int
    in_order: int
    batches: int
    idles: int
    bits: int
    airtime_ms: int
    bound: int


class Frame(NamedTuple):
    """How many pages start in a frame, how many codewords these have, and how many codewords of the frame are idle."""

    frame: int
    pages: int
    codewords: int
    room: int


class Frames(NamedTuple):
    """The eight frames of a plan."""

    frames: List[Frame]
    batches: int
    bound: int


class Shown(NamedTuple):
    """Whether a certificate shows its batches, and for which end."""

    is_shown: bool
    end: int
    batches: int


class Explanation(NamedTuple):
    """The same, with why."""

    is_shown: bool
    end: int
    batches: int
    text: bytes


FAULTS: Dict[int, Type[Fault]] = {}


class Fault(Exception):
    """Why a call did nothing: its status, and where the fault stands."""

    text = "status {status}"

    def __init_subclass__(cls, status: Optional[int] = None, text: str = "") -> None:
        super().__init_subclass__()
        if status is not None:
            cls.text, cls.__doc__, FAULTS[status] = text, f"Status {status}: {text}", cls

    def __init__(self, status: int, place: Place) -> None:
        self.status = status
        self.record_number, self.least, self.found, self.at = place.record_number, place.least, place.found, place.at
        text = self.text.format(**vars(self))
        alone = "record 0: " if status < 41 else ""  # a page that stands in no file has no record; the header is record 0
        super().__init__(text[len(alone) :] if alone and text.startswith(alone) else text)

    def _numbers(self) -> Tuple[int, int, int, int, int]:
        return self.status, self.record_number, self.least, self.found, self.at

    def __reduce__(self) -> Tuple[Any, ...]:
        """What `pickle` and `copy` make it of."""
        return type(self), (self.status, Place(*self._numbers()[1:])), vars(self)

    def __eq__(self, other: object) -> bool:
        return isinstance(other, Fault) and type(self) is type(other) and self._numbers() == other._numbers()

    def __hash__(self) -> int:
        return hash(self._numbers())


# A fault for each status, with the text of the program.
class BadEnd(Fault, status=2, text="the end must be 0, 1 or 2"): ...
class OutOfMemory(Fault, MemoryError, status=3, text="out of memory"): ...
class BadRate(Fault, status=4, text="the rate must be 512, 1200 or 2400"): ...
class BadLimit(Fault, status=5, text="the limit must be 1 to 1000000"): ...
class SearchLimit(Fault, status=6, text="search limit reached: at least {least} batches, {found} would do"): ...
class BadForm(Fault, status=11, text="the form must be 0 or 1"): ...
class FirstPage(Fault, status=12, text="page 1 needs {found} batches"): ...
class PagesTooLarge(Fault, status=17, text="the file is too large"): ...
class BadHeader(Fault, status=18, text="the header must be address,kind,message"): ...
class FieldCount(Fault, status=19, text="record {record_number}: three fields are wanted"): ...
class BadAddress(Fault, status=20, text="record {record_number}: bad address"): ...
class ReservedAddress(Fault, status=21, text="record {record_number}: reserved address"): ...
class BadKind(Fault, status=22, text="record {record_number}: unknown kind"): ...
class MessageForTone(Fault, status=23, text="record {record_number}: a tone page has no message"): ...
class EmptyMessage(Fault, status=24, text="record {record_number}: the message is empty"): ...
class BadCharacter(Fault, status=25, text="record {record_number}: bad character at {at}"): ...
class TooLong(Fault, status=26, text="record {record_number}: the message is too long"): ...
class DuplicateAddress(Fault, status=27, text="record {record_number}: the address is already there"): ...
class TooManyPages(Fault, status=28, text="record {record_number}: too many pages"): ...
class BadPayload(Fault, status=29, text="record {record_number}: bad payload"): ...
class NoPages(Fault, status=30, text="there are no pages"): ...
class NotCertificate(Fault, status=32, text="not a certificate"): ...
class CertVersion(Fault, status=33, text="unknown certificate version"): ...
class CertTruncated(Fault, status=34, text="the certificate is cut short"): ...
class CertTrailing(Fault, status=35, text="bytes after the certificate"): ...
class CertBadTag(Fault, status=36, text="the certificate is malformed"): ...
class CertBadField(Fault, status=37, text="the certificate is malformed"): ...
class CertTooDeep(Fault, status=38, text="the certificate is too deep"): ...
class CertTooMany(Fault, status=39, text="the certificate has too many nodes"): ...
class QuoteOpen(Fault, status=41, text="record {record_number}: the quote in line {at} is not closed"): ...
class QuoteInside(Fault, status=42, text="record {record_number}: the quote in line {at} stands inside a field that begins without one"): ...
class QuoteFollowed(Fault, status=43, text="record {record_number}: text follows the closing quote in line {at}"): ...
class ShortPreamble(Fault, status=48, text="the preamble is too short"): ...
class NoSync(Fault, status=49, text="batch {at}: no synchronisation codeword"): ...
class BadWord(Fault, status=50, text="codeword {at}: not a codeword"): ...
class Orphan(Fault, status=51, text="codeword {at}: a message without an address"): ...
class Truncated(Fault, status=52, text="the transmission is cut short"): ...
class NoBatch(Fault, status=53, text="the transmission has no batch"): ...
class CaptureTooLarge(Fault, status=56, text="the capture is too large"): ...
class BadRows(Fault, status=57, text="there are no such batches"): ...
class BadReading(Fault, status=58, text="a reading or the form of a picture must be 0, 1 or 2"): ...
class BadSamples(Fault, status=60, text="the samples a second must be from the rate to 192000"): ...
class BadPreamble(Fault, status=61, text="the preamble must have 576 bits or more, a multiple of 8"): ...
class TooLongForWav(Fault, status=62, text="the sound is too long for a WAV file"): ...
class PagerBadAddress(Fault, status=64, text="bad address"): ...
class PagerReservedAddress(Fault, status=65, text="reserved address"): ...

NAMES = {status: (fault.__name__, fault.text) for status, fault in FAULTS.items()}

# What each call takes, as pocsag.h has it: bytes that are read, and a buffer with the length of what is written.
READ = (ctypes.c_char_p, SIZE)
WRITTEN = (ctypes.POINTER(ctypes.c_uint8), SIZE, ctypes.POINTER(SIZE))
SEARCH = (WORD, WORD, WORD)
AT = ctypes.POINTER(Place)
CALLS: Dict[str, Sequence[Any]] = {
    "pocsag_version": (),
    "pocsag_plan": (*READ, *WRITTEN, *WRITTEN, *SEARCH, ctypes.POINTER(PlanInfo)),
    "pocsag_plan_at_most": (*READ, WORD, *WRITTEN, *WRITTEN, *WRITTEN, *WRITTEN, *SEARCH, ctypes.POINTER(FrontInfo)),
    "pocsag_check": (*READ, *READ, ctypes.POINTER(CheckInfo)),
    "pocsag_explain": (*READ, *READ, WORD, WORD, *WRITTEN, ctypes.POINTER(CheckInfo)),
    "pocsag_decode": (*READ, *WRITTEN, AT),
    "pocsag_hear": (WORD, *READ, *WRITTEN, AT),
    "pocsag_report": (*READ, WORD, *SEARCH, ctypes.POINTER(ReportInfo)),
    "pocsag_frames": (*READ, *SEARCH, ctypes.POINTER(FramesInfo)),
    "pocsag_decode_as": (WORD, *READ, *WRITTEN, AT),
    "pocsag_hear_as": (WORD, WORD, *READ, *WRITTEN, AT),
    "pocsag_show": (WORD, *READ, WORD, WIDE, WIDE, *WRITTEN, AT),
    "pocsag_wav": (*READ, WORD, WORD, WORD, WORD, *WRITTEN, AT),
    "pocsag_lay_in_order": (*READ, *WRITTEN, AT),
    "pocsag_write_page": (WORD, WORD, *READ, *WRITTEN, AT),
    "pocsag_strict": (*READ, AT),
    "pocsag_airtime_batches": (WORD, WORD, ctypes.POINTER(WORD)),
    "pocsag_text_of_status": (WORD, *WRITTEN),
    "pocsag_text_of_version": WRITTEN,
}


def raised(status: int, place: Place) -> Fault:
    return FAULTS.get(status, Fault)(status, place)


def number_in(value: int, status: int, greatest: int = GREATEST) -> int:
    """A number that C holds; the fault of the status where it does not."""
    value = operator.index(value)
    if not 0 <= value <= greatest:
        raise raised(status, Place())
    return value


def choice_in(value: Union[int, str], names: Sequence[str], status: int) -> int:
    """A number that C holds, or that of a name; the fault of the status where it is neither."""
    if not isinstance(value, str):
        return number_in(value, status)
    if value not in names:
        raise raised(status, Place())
    return names.index(value)


def small_number(value: int, name: str) -> int:
    """A number that C holds, of which the library allows each."""
    value = operator.index(value)
    if not 0 <= value <= GREATEST:
        raise ValueError(f"{name} must be 0 to {GREATEST}, not {value}")
    return value


def search_in(limit: int, end: End, always: bool) -> Tuple[int, int, int]:
    """The numbers of a search."""
    chosen = choice_in(end, ENDS, 2)
    return number_in(limit, 5), chosen, int(bool(always))


def bytes_in(data: Data) -> Tuple[bytes, int]:
    """Bytes that are read, and how many."""
    data = data if type(data) is bytes else bytes(memoryview(data))
    return data, len(data)


def utf8_in(text: PageFile) -> Tuple[bytes, int]:
    """The same of a page file or a message, which may be a text."""
    return bytes_in(text.encode() if isinstance(text, str) else text)


def buffer_of(size: int) -> Tuple[ctypes.Array[ctypes.c_uint8], int]:
    """A buffer of so many bytes, which is never null, and its length."""
    size = small_number(size, "a size")
    return (ctypes.c_uint8 * max(size, 1))(), size


class Text:
    """A buffer of so many bytes, and the length of what a call writes into it or has no room for."""

    def __init__(self, size: int) -> None:
        self.buffer, self.size = buffer_of(size)
        self.told = SIZE()
        self.words = self.buffer, self.size, ctypes.byref(self.told)

    @property
    def length(self) -> int:
        return self.told.value

    def written(self) -> bytes:
        return ctypes.string_at(self.buffer, self.length)


def default_library() -> str:
    """The library that is installed or unpacked with this module, or else the system's."""
    above = pathlib.Path(__file__).resolve().parents
    places = [folder / LIBRARY for folder in (*above[:4], above[2] / "lib")]
    return next((str(path) for path in places if path.is_file()), LIBRARY)


class Pocsag:
    """The calls of the library, by its path; where none is given, the one that is installed. It may be pickled.

    Any number of threads may call at one time; each needs a mebibyte of stack, which `threading.stack_size` may take away. A call
    cannot be interrupted: Control+C is seen when it returns."""

    def __init__(self, library: Union[str, os.PathLike[str], None] = None) -> None:
        self.path = os.fspath(library or default_library())
        self.library = ctypes.CDLL(self.path)
        for name, types in CALLS.items():
            call = getattr(self.library, name)
            call.argtypes, call.restype = types, WORD

    def __reduce__(self) -> Tuple[Type[Pocsag], Tuple[str]]:
        return type(self), (self.path,)

    def version(self) -> int:
        """The number of the library's interface."""
        return int(self.library.pocsag_version())

    def release(self) -> str:
        """The version of the package that the library is part of."""
        return self._text(self.library.pocsag_text_of_version).decode()

    def status_text(self, status: int) -> str:
        """What a status says, without its place."""
        return self._text(self.library.pocsag_text_of_status, small_number(status, "a status")).decode()

    def plan(
        self, pages: PageFile, limit: int = 100_000, end: End = OPEN, always: bool = True,
        sizes: Tuple[int, int] = (65_536, 65_536), strict: bool = False,
    ) -> Plan:  # fmt: skip
        """The plan of a page file. It is asked for once more where one of the sizes does not do. Unless `always` is False no round
        is refused, and the batches may be one more than the bound. Here and below `strict` is as the call of this name."""
        tx_size, cert_size = sizes
        read, info, tx, cert = self._pages(pages, strict), PlanInfo(), Text(tx_size), Text(cert_size)
        status = self.library.pocsag_plan(*read, *tx.words, *cert.words, *search_in(limit, end, always), ctypes.byref(info))
        if status in (7, 8):
            return Pocsag.plan(self, read[0], limit, end, always, (tx.length, cert.length))
        if status:
            raise raised(status, info.place)
        return Plan(tx.written(), cert.written(), *(getattr(info, name) for name in Plan._fields[2:]))

    def plan_at_most(
        self, pages: PageFile, batches: int, limit: int = 100_000, end: End = OPEN, always: bool = True,
        sizes: Tuple[int, int, int, int] = (65_536, 65_536, 65_536, 65_536), strict: bool = False,
    ) -> Front:  # fmt: skip
        """The plan of as many first pages of a page file as so many batches carry, the page file of the others, and the
        certificate of one page more; of these two None where their size is 0. It is asked for once more where a size does
        not do."""
        tx_size, cert_size, rest_size, why_size = sizes
        read, info, texts = self._pages(pages, strict), FrontInfo(), [Text(size) for size in (tx_size, cert_size, rest_size, why_size)]
        status = self.library.pocsag_plan_at_most(
            *read, small_number(batches, "the batches"), *(word for text in texts for word in text.words),
            *search_in(limit, end, always), ctypes.byref(info),
        )  # fmt: skip
        if status in (7, 8, 13, 14):
            tx, cert, rest, why = (text.length for text in texts)
            wanted = tx, cert, rest_size and rest, why_size and why  # no byte of these two is asked for by the size 0
            return Pocsag.plan_at_most(self, read[0], batches, limit, end, always, wanted)
        if status:
            raise raised(status, info.place)
        written = [text.written() if text.length <= text.size else None for text in texts]
        return Front(*written, *(getattr(info, name) for name in Front._fields[4:]))  # type: ignore[arg-type]  # the first two have room

    def report(
        self, pages: PageFile, rate: int, limit: int = 100_000, end: End = OPEN, always: bool = True, strict: bool = False
    ) -> Report:
        """What the plan of a page file takes on the air at a rate."""
        read, info = self._pages(pages, strict), ReportInfo()
        status = self.library.pocsag_report(*read, number_in(rate, 4), *search_in(limit, end, always), ctypes.byref(info))
        if status:
            raise raised(status, info.place)
        return Report(*(getattr(info, name) for name in Report._fields))

    def frames(self, pages: PageFile, limit: int = 100_000, end: End = OPEN, always: bool = True, strict: bool = False) -> Frames:
        """The eight frames of the plan of a page file, in their order: how many pages start in each, how many codewords these have,
        and as its room how many of its codewords are idle, of two in each batch."""
        read, info = self._pages(pages, strict), FramesInfo()
        status = self.library.pocsag_frames(*read, *search_in(limit, end, always), ctypes.byref(info))
        if status:
            raise raised(status, info.place)
        frames = [Frame(*(getattr(frame, name) for name in Frame._fields)) for frame in info.frames]
        return Frames(frames, info.batches, info.bound)

    def check(self, pages: PageFile, certificate: Data, strict: bool = False) -> Shown:
        """Whether the certificate shows its number of batches for the page file."""
        read, info = self._pages(pages, strict), CheckInfo()
        status = self.library.pocsag_check(*read, *bytes_in(certificate), ctypes.byref(info))
        if status > 1:
            raise raised(status, info.place)
        return Shown(status == 0, info.end, info.batches)

    def explain(
        self, pages: PageFile, certificate: Data, form: Form = IN_WORDS, depth: int = 3, size: int = 65_536, strict: bool = False
    ) -> Explanation:
        """Why fewer batches than the certificate's do not suffice for the page file, or which node does not hold."""
        read, info, text = self._pages(pages, strict), CheckInfo(), Text(size)
        asked = choice_in(form, FORMS, 11), small_number(depth, "the depth")
        status = self.library.pocsag_explain(*read, *bytes_in(certificate), *asked, *text.words, ctypes.byref(info))
        if status == 10:
            return Pocsag.explain(self, read[0], certificate, form, depth, text.length)
        if status > 1:
            raise raised(status, info.place)
        return Explanation(status == 0, info.end, info.batches, text.written())

    def decode(self, transmission: Data, reading: Reading = PLAIN) -> bytes:
        """The listing of a transmission; of its repair, or of all transmissions of a capture."""
        return self._placed_text(self.library.pocsag_decode_as, choice_in(reading, READINGS, 58), *bytes_in(transmission))

    def hear(self, address: int, transmission: Data, reading: Reading = PLAIN) -> bytes:
        """The listing of what the pager of the address shows of the same."""
        asked = choice_in(reading, READINGS, 58), number_in(address, 64)
        return self._placed_text(self.library.pocsag_hear_as, *asked, *bytes_in(transmission))

    def show(
        self, transmission: Data, form: Picture = SHOW_TEXT, batches: Tuple[int, int] = ALL_BATCHES, reading: Reading = PLAIN
    ) -> bytes:
        """A picture of the same: a letter for each codeword, where each page stands, or a drawing in SVG; of the batches from one to
        another, counted from 1."""
        first, last = (number_in(batch, 57, 2**64 - 1) for batch in batches)
        read, chosen = bytes_in(transmission), choice_in(reading, READINGS, 58)
        return self._placed_text(self.library.pocsag_show, chosen, *read, choice_in(form, PICTURES, 58), first, last)

    def wav(self, transmission: Data, rate: int, samples: int = 48_000, preamble: Optional[int] = None, inverted: bool = False) -> bytes:
        """The sound that a transmitter is keyed with, as a WAV file; with so many bits of preamble in place of its own."""
        asked = 0 if preamble is None else number_in(preamble, 61) or 1  # no preamble has 0 bits or 1
        keyed = number_in(rate, 4), number_in(samples, 60), asked, int(bool(inverted))
        return self._placed_text(self.library.pocsag_wav, *bytes_in(transmission), *keyed)

    def lay_in_order(self, pages: PageFile, strict: bool = False) -> bytes:
        """The transmission of a page file in the order of the file."""
        return self._placed_text(self.library.pocsag_lay_in_order, *self._pages(pages, strict))

    def write_page(self, address: int, kind: Kind, message: PageFile = b"") -> bytes:
        """The record of a page. `HEADER` and the records behind it are a page file."""
        number = KINDS.index(kind) if kind in KINDS else len(KINDS)
        return self._placed_text(self.library.pocsag_write_page, number_in(address, 20), number, *utf8_in(message))

    def strict(self, pages: PageFile) -> None:
        """Refuses a page file in which a quote does not stand as CSV has it."""
        place = Place()
        status = self.library.pocsag_strict(*utf8_in(pages), ctypes.byref(place))
        if status:
            raise raised(status, place)

    def airtime_batches(self, airtime_ms: int, rate: int) -> int:
        """The most batches that last at most so many milliseconds at a rate."""
        batches = WORD()
        status = self.library.pocsag_airtime_batches(small_number(airtime_ms, "the airtime"), number_in(rate, 4), ctypes.byref(batches))
        if status:
            raise raised(status, Place())
        return batches.value

    def _pages(self, pages: PageFile, strict: bool) -> Tuple[bytes, int]:
        """The bytes of a page file, which may be refused for a quote."""
        read = utf8_in(pages)
        if strict:
            Pocsag.strict(self, read[0])
        return read

    def _placed_text(self, call: Callable[..., Any], *words: Any) -> bytes:
        """The text of a call that tells a place, or its fault."""
        return self._text(call, *words, told=(Place(),))

    def _text(self, call: Callable[..., Any], *words: Any, told: Sequence[Place] = (), size: int = 65_536) -> bytes:
        text = Text(size)
        status = call(*words, *text.words, *map(ctypes.byref, told))
        if text.length > size:
            return self._text(call, *words, told=told, size=text.length)
        if status:
            raise raised(status, *told)
        return text.written()
