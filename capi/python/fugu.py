"""A node of the FUGU machine, by the proved calls of libfugu.

>>> import fugu
>>> node = fugu.Node()
>>> node.line("S,1").answer
<Answer.ACCEPTED: 0>
>>> node.line("A,1,7,8").upcall
1
>>> node.head()
(7, 8)
>>> node.step("E", 1).value
8

A script is a text, or its portions: a list of texts, or a file, open for reading in binary, since Python
would else take a carriage return for the end of a line, which it isn't.

>>> print(fugu.listing("S,1\\nA,1,7\\nD\\n"), end="")
line,answer,value,trap,upcall,moved
1,0,0,0,0,0
2,0,0,0,1,0
3,0,0,0,0,0
>>> print(fugu.why("S,1\\nA,1,7\\nD\\n", 2))
line 2: reason 1 at line 3: never buffered, disposed of

docs/LISTING.md explains the operations and the numbers of a report, docs/MEMORY.md where each number of
a node stands. The library is the one that the environment's FUGU_LIBRARY names, else the one that is
installed with this module, else that of the project's folder, else one that the system knows.
"""

import ctypes
import ctypes.util
import enum
import os
import re
from pathlib import Path
from typing import Callable, Iterable, Iterator, List, NamedTuple, Optional, Tuple, Union

__all__ = [
    "SIZE", "Answer", "Trap", "Reason", "Sent", "Report", "Paging", "Why", "Refused",
    "Node", "Player", "play", "listing", "why", "why_all",
]

Text = Union[str, bytes]
Script = Union[Text, Iterable[Text]]

SIZE = 8104
"""The words of a node."""

_REPORT, _HEAD, _PAGING, _WHY = 16, 2, 2, 4
_HEADER = 36
_FEED_STATE, _TELL_STATE, _KEPT, _PART = 2, 19, 130, 3
_STOP, _WRITTEN, _USED = 0, 1, 2
_ALL_USED, _NO_ROOM = 0, 1
# Room for what a portion of some size writes; a line, and the script's end, take 4,480 bytes at most.
_ROOM = 1 << 16

_Words = ctypes.POINTER(ctypes.c_uint32)
_Longs = ctypes.POINTER(ctypes.c_uint64)
_Bytes = ctypes.POINTER(ctypes.c_uint8)
_Out = ctypes.POINTER(ctypes.c_char)


class Answer(enum.IntEnum):
    """What a step is answered: it is accepted, or the first of the refusals that holds."""

    ACCEPTED = 0
    NOT_NODE = 1
    UNREADABLE = 2
    BAD_GROUP = 3
    BAD_WORDS = 4
    QUEUE_FULL = 5
    NO_PAGES = 6
    NOBODY_RUNS = 7
    NO_MESSAGE = 8
    PAST_MESSAGE = 9
    STILL_PENDING = 10
    DESCRIPTOR_FULL = 11
    DESCRIPTOR_EMPTY = 12
    BAD_NODE = 13
    BAD_SCHEDULE = 14
    BAD_TICKS = 15
    ALREADY_RUNS = 16
    NO_ARRIVAL = 17


class Trap(enum.IntEnum):
    """How the kernel had to step in."""

    NONE = 0
    DISPOSE_EXTEND = 1
    ATOMICITY_EXTEND = 2
    TIMEOUT = 3


class Reason(enum.IntEnum):
    """Why a message was buffered, or where it went instead."""

    DISPOSED_OF = 1
    STILL_QUEUED = 2
    NOT_RUNNING = 3
    OLDER_WAITING = 4
    REVOKED = 5
    TIMEOUT = 6
    PROCESSOR_TAKEN = 7

    @property
    def words(self) -> str:
        """The reason in words.

        >>> Reason.PROCESSOR_TAKEN.words
        'the processor was taken'
        """
        return (
            "never buffered, disposed of",
            "still in the hardware queue",
            "its group wasn't running when it became head",
            "older messages of its group were waiting in the buffer",
            "its group was revoked",
            "timeout",
            "the processor was taken",
        )[self - 1]


class Sent(NamedTuple):
    """What an accepted L sends: to which node, of which group, which words."""

    node: int
    group: int
    words: Tuple[int, ...]


class Report(NamedTuple):
    """What a step reported. Of a refused one all but the answer is 0, and nothing is sent.

    >>> report = Node().step("S", 9)
    >>> report.accepted, report.answer.name, str(report)
    (False, 'BAD_SCHEDULE', '14,0,0,0,0')
    """

    answer: Answer
    value: int
    trap: Trap
    upcall: int
    moved: int
    sent: Optional[Sent]

    @property
    def accepted(self) -> bool:
        """Whether the step was accepted."""
        return self.answer == Answer.ACCEPTED

    def __str__(self) -> str:
        """As a line of a listing has it behind its number."""
        numbers = [*self[:5]]
        if self.sent:
            numbers += [self.sent.node, self.sent.group, *self.sent.words]
        return ",".join(str(int(number)) for number in numbers)


class Paging(NamedTuple):
    """How many pages went to swap space and came back; an exchange is one of each."""

    sent_out: int
    brought_in: int


class Why(NamedTuple):
    """Why the message that came by a line was buffered, and the line that the reason is named with: the
    one that moved it, for one never buffered the one that disposed of it, for one still queued the
    script's last."""

    line: int
    reason: Reason
    at: int

    def __str__(self) -> str:
        return f"line {self.line}: reason {int(self.reason)} at line {self.at}: {self.reason.words}"


class Refused(ValueError):
    """There is no reason to tell: the line can't be read, or is no accepted arrival."""

    def __init__(self, line: int, answer: Answer) -> None:
        told = "it can't be read" if answer == Answer.UNREADABLE else "it is no accepted arrival of this script"
        super().__init__(f"line {line}: refused with {int(answer)}: {told}")
        self.line = line
        self.answer = answer


def _path() -> str:
    """Where the library is."""
    named = os.environ.get("FUGU_LIBRARY")
    if named:
        return named
    here = Path(__file__).resolve().parent
    # Installed as PREFIX/share/fugu/python, or in the project's folder as capi/python.
    installed = here.parts[-3:] == ("share", "fugu", "python")
    library = here.parents[2] / "lib" if installed else here.parents[1] / "target" / "lib"
    library /= "libfugu.so.0"
    found = str(library) if library.exists() else ctypes.util.find_library("fugu")
    if not found:
        raise ImportError(f"{library} is not there, FUGU_LIBRARY names no other, and the system knows none")
    return found


def _loaded() -> ctypes.PyDLL:
    """The library with its calls declared. A call keeps other threads of the program waiting, so that no
    two are made on one memory at once."""
    path = _path()
    try:
        library = ctypes.PyDLL(path)
    except OSError as error:
        raise ImportError(f"libfugu can't be loaded: {error}") from error
    size = ctypes.c_size_t
    memory, report, text = (_Words, size), (_Words, size), (ctypes.c_char_p, size)
    carried, told = (_Longs, size, _Bytes, size), (_Out, size, _Longs, size)
    takes = {
        "size": (),
        "power_on": memory + report,
        "test": memory,
        "step": (*memory, ctypes.c_uint8, _Words, size, *report),
        "line": memory + text + report,
        "head": memory + report,
        "paging": memory + report,
        "why": (*memory, *text, ctypes.c_uint32, *report),
        "header": (_Out, size),
        "feed": memory + carried + text + told,
        "feed_end": memory + carried + told,
        "tell": memory + carried + text + told,
        "tell_end": memory + carried + told,
    }
    for name, types in takes.items():
        call = getattr(library, f"fugu_{name}", None)
        if call is None:
            raise ImportError(f"{path} has no call fugu_{name}: it is another version of libfugu")
        call.restype, call.argtypes = ctypes.c_uint32, types
    return library


_library = _loaded()


def _as_bytes(text: Text) -> bytes:
    return text.encode() if isinstance(text, str) else bytes(text)


def _portions(script: Script) -> Iterator[bytes]:
    if isinstance(script, (str, bytes, bytearray, memoryview)):
        yield _as_bytes(script)
    else:
        yield from map(_as_bytes, script)


def _number(number: int) -> int:
    if not 0 <= number < 1 << 32:
        raise ValueError(f"{number} is no number of 32 bits")
    return number


def _words(memory: Union[bytes, Iterable[int]]) -> "ctypes.Array[ctypes.c_uint32]":
    """A copy of a memory, in words: bytes are those of 32-bit words, the lowest first."""
    if isinstance(memory, (bytes, bytearray)):
        if len(memory) % 4:
            raise ValueError(f"{len(memory)} bytes are no whole number of words")
        return (ctypes.c_uint32 * (len(memory) // 4)).from_buffer_copy(memory)
    numbers = [_number(word) for word in memory]
    return (ctypes.c_uint32 * len(numbers))(*numbers)


class Node:
    """Memory that the calls are made on: a node at power-on, or a copy of what is handed over, which may be
    a dump of a node, as the desk keeps it in a file, or anything. On memory that is no node each step is
    answered 1 and changes nothing.

    >>> node = Node()
    >>> again = Node(bytes(node))
    >>> again == node, again.test()
    (True, True)
    >>> Node([1, 2, 3]).line("S,1").answer.name
    'NOT_NODE'
    """

    __hash__ = None  # type: ignore[assignment]

    def __init__(self, memory: Union[bytes, Iterable[int], None] = None) -> None:
        self._memory = (ctypes.c_uint32 * SIZE)() if memory is None else _words(memory)
        if memory is None:
            self.power_on()

    def _told(self, call: Callable[..., int], count: int, *arguments: object) -> List[int]:
        """The words that a call tells."""
        part = (ctypes.c_uint32 * count)()
        call(self._memory, len(self._memory), *arguments, part, count)
        return list(part)

    def _reported(self, call: Callable[..., int], *arguments: object) -> Report:
        answer, value, trap, upcall, moved, node, group, count, *words = self._told(call, _REPORT, *arguments)
        sent = Sent(node, group, tuple(words[:count])) if count else None
        return Report(Answer(answer), value, Trap(trap), upcall, moved, sent)

    def power_on(self) -> Report:
        """Makes the memory, whatever stands in it, a node on which nobody runs. Memory that is too short is
        refused."""
        return self._reported(_library.fugu_power_on)

    def test(self) -> bool:
        """Whether the memory is a node."""
        return bool(_library.fugu_test(self._memory, len(self._memory)))

    def step(self, letter: str, *numbers: int) -> Report:
        """One step: the operation by its letter, and its numbers.

        >>> node = Node()
        >>> node.step("A", 2, 5, 6).moved
        1
        >>> node.step("C").value
        2
        """
        if len(letter) != 1 or not letter.isascii():
            raise ValueError(f"{letter!r} is no letter of an operation")
        arguments = (ctypes.c_uint32 * len(numbers))(*map(_number, numbers))
        return self._reported(_library.fugu_step, ord(letter), arguments, len(numbers))

    def line(self, text: Text) -> Report:
        """One step by a line of a script, without its newline.

        >>> Node().line("S, 1").answer
        <Answer.UNREADABLE: 2>
        """
        written = _as_bytes(text)
        return self._reported(_library.fugu_line, written, len(written))

    def play(self, script: Script) -> Iterator[str]:
        """The script played on this node, as its portions come: the listing's header, and then for each
        portion the lines of the listing that it completes."""
        return play(script, self)

    def head_part(self) -> range:
        """Where the running group's first message stands in the memory; an empty range where it has none."""
        at, count = self._told(_library.fugu_head, _HEAD)
        return range(at, at + count)

    def head(self) -> Tuple[int, ...]:
        """Its words."""
        part = self.head_part()
        return tuple(self._memory[part.start:part.stop])

    def paging(self) -> Paging:
        """How many pages went to swap space and came back so far; a count stays at 4,294,967,295 once
        there."""
        return Paging(*self._told(_library.fugu_paging, _PAGING))

    @property
    def memory(self) -> memoryview:
        """The words themselves, to be read and written.

        >>> node = Node()
        >>> node.memory[0] = 9
        >>> node.test()
        False
        """
        return memoryview(self._memory).cast("B").cast("I")

    def copy(self) -> "Node":
        """Another node with the same memory."""
        return Node(bytes(self))

    def __bytes__(self) -> bytes:
        """The memory as a file has it: 32-bit words, the lowest byte first."""
        return bytes(self._memory)

    def __eq__(self, other: object) -> bool:
        return bytes(self) == bytes(other) if isinstance(other, Node) else NotImplemented


class _Fed:
    """A script that is being read on a node's memory: a pair of calls, for a portion and for the end."""

    def __init__(self, node: Node, state: int, portion: Callable[..., int], end: Callable[..., int]) -> None:
        self._node = node
        state_words = (ctypes.c_uint64 * state)()
        kept = (ctypes.c_uint8 * _KEPT)()
        self._lent = (node._memory, len(node._memory), state_words, state, kept, _KEPT)
        self._out = ctypes.create_string_buffer(_ROOM)
        self._part = (ctypes.c_uint64 * _PART)()
        self._portion, self._end = portion, end
        self._ended = False

    def _written(self, call: Callable[..., int], *arguments: object) -> str:
        if self._ended:
            raise ValueError("the script has ended")
        call(*self._lent, *arguments, self._out, _ROOM, self._part, _PART)
        if self._part[_STOP] not in (_ALL_USED, _NO_ROOM):
            raise OverflowError("no line numbers are left")
        return ctypes.string_at(self._out, self._part[_WRITTEN]).decode("ascii")

    def feed(self, portion: Text) -> str:
        """The next portion, of any size: what is written of the lines that it completes. A line that has
        begun at its end goes on in the next one."""
        rest = _as_bytes(portion)
        written = [self._written(self._portion, rest, len(rest))]
        # There is room for a line at least, so that some of the portion is used.
        while self._part[_STOP] == _NO_ROOM:
            rest = rest[self._part[_USED]:]
            written.append(self._written(self._portion, rest, len(rest)))
        return "".join(written)

    def finish(self) -> str:
        """The script's end: a line that has begun is its last."""
        written = self._written(self._end)
        self._ended = True
        return written


class Player(_Fed):
    """A script that is played on a node, and listed, as it comes.

    >>> player = Player()
    >>> player.header + player.feed("S,1\\nA,1")
    'line,answer,value,trap,upcall,moved\\n1,0,0,0,0,0\\n'
    >>> player.feed(",7") + player.finish()
    '2,0,0,0,1,0\\n'
    >>> player.node.head()
    (7,)
    """

    def __init__(self, node: Optional[Node] = None) -> None:
        self.node = Node() if node is None else node
        super().__init__(self.node, _FEED_STATE, _library.fugu_feed, _library.fugu_feed_end)

    @property
    def header(self) -> str:
        """The header line of the listing."""
        out = ctypes.create_string_buffer(_HEADER)
        written = _library.fugu_header(out, _HEADER)
        return out.raw[:written].decode("ascii")


def play(script: Script, node: Optional[Node] = None) -> Iterator[str]:
    """The script played as its portions come, on a node, or from power-on on one of its own: the listing's
    header, and then for each portion the lines of the listing that it completes.

    >>> [text for text in play(["S,1\\n", "A,1", ",7\\n"]) if text]
    ['line,answer,value,trap,upcall,moved\\n', '1,0,0,0,0,0\\n', '2,0,0,0,1,0\\n']
    """
    player = Player(node)
    yield player.header
    for portion in _portions(script):
        yield player.feed(portion)
    yield player.finish()


def listing(script: Script, node: Optional[Node] = None) -> str:
    """The listing of a script, whole."""
    return "".join(play(script, node))


def why(script: Text, line: int) -> Why:
    """Why the message that came by a line of a script, counted from 1, was buffered, or where it went
    instead. The script is played from power-on. Refused is raised where the line is no accepted arrival.

    >>> why("S,1\\nA,1,7\\nO\\n", 2).reason
    <Reason.PROCESSOR_TAKEN: 7>
    """
    text = _as_bytes(script)
    told = Node()._told(_library.fugu_why, _WHY, text, len(text), _number(line))
    answer, reason, low, high = told
    if answer != Answer.ACCEPTED:
        raise Refused(line, Answer(answer))
    return Why(line, Reason(reason), high << 32 | low)


_TOLD = re.compile(r"line (\d+): reason (\d+) at line (\d+): .*\n")


def why_all(script: Script) -> Iterator[Why]:
    """The same of every accepted arrival of a script, in their order, each as soon as its message has left
    the hardware queue.

    >>> for told in why_all("S,1\\nA,1,7\\nA,2,5\\nD\\n"):
    ...     print(told)
    line 2: reason 1 at line 4: never buffered, disposed of
    line 3: reason 3 at line 4: its group wasn't running when it became head
    """
    fed = _Fed(Node(), _TELL_STATE, _library.fugu_tell, _library.fugu_tell_end)

    def texts() -> Iterator[str]:
        yield from map(fed.feed, _portions(script))
        yield fed.finish()

    for text in texts():
        for line, reason, at in _TOLD.findall(text):
            yield Why(int(line), Reason(int(reason)), int(at))
