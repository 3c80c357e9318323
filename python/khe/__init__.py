"""The high school timetabling engine `khe`, asked from Python.

A :class:`Session` holds one solution of an archive in an engine of its own, whose answers are those of `khe script`:
each cost, each total and each refusal is what the proved engine gives for the timetable as it stands. The standard
library is all that this module needs.

    import khe

    with khe.Session("examples/school_week.xml", 0) as week:
        print(week.totals())                  # Totals(hard=25, soft=13)
        with week.mark() as mark:
            week.move(3, 4)
            if week.totals() < (25, 13):
                mark.keep()                   # else the mark takes all of it back

Two doors lead to the engine, and a session has the same methods behind either:

- A shared library of the engine, in this process: the file that the argument `library` names, or `libkhe.so` beside
  this file, where it was installed with the package.
- The program `khe-talk`, over pipes. It is looked for in this order: the argument `program`, the variable KHE_TALK,
  `khe-talk` in the repository that this file is of, `khe-talk` on the path.

Where neither argument is there and KHE_TALK is not set, a session takes the library that was installed with the
package, or else the program. Several threads may call one session: its calls take turns.

Times, resources, events and monitors are numbered from 0 in the order of the archive, meets and tasks as the
answers of :meth:`Session.meets` show them. What an edit does and when it is refused stands in docs/manual.md.

As a program it asks one session of each kind of question, and says how fast it answers:

    python3 -m khe ARCHIVE SOLUTION [--program PROGRAM | --library LIBRARY] [--one-processor] [--lines N]
"""

from __future__ import annotations

import ctypes
import os
import re
import shlex
import shutil
import subprocess
import threading
import weakref
from os import read as _read, write as _write
from types import TracebackType
from typing import Any, Callable, Iterable, Iterator, NamedTuple, NoReturn, Optional, Protocol, Sequence, Union

__all__ = [
    "ArchiveRefused", "Deficit", "Ended", "KheError", "Mark", "Meet", "Monitor", "NoReading", "Refused", "Repaired",
    "Session", "Totals",
]


# -- what is answered ------------------------------------------------------------------------------------------------

class Totals(NamedTuple):
    """The hard and the soft total of a timetable. They compare as the engine compares them: hard first."""
    hard: int
    soft: int


class Meet(NamedTuple):
    """A meet: its number, the Id of its event, its duration, the time that it starts at or None, and the resources
    of its tasks by place, with None where a task has none."""
    number: int
    event: str
    duration: int
    time: Optional[int]
    tasks: tuple[Optional[int], ...]


class Monitor(NamedTuple):
    """A monitor: its number, the kind and the Id of its constraint, its point as text, its deviation, its cost,
    whether the constraint is required (a hard cost), and whether it is detached."""
    number: int
    kind: str
    constraint: str
    point: str
    deviation: int
    cost: int
    is_hard: bool
    is_detached: bool


class Deficit(NamedTuple):
    """What is short: how many demands must go without, and those that compete. A demand is
    ("demand", meet, place, offset) or ("unavailable", resource, time)."""
    deficit: int
    demands: tuple[tuple[Union[str, int], ...], ...]


class Repaired(NamedTuple):
    """How a repair ended: whether it was done (and not cut off by its budget), how many chains it took of how many
    that it tried, the length up to which all chains were tried in vain (None where it was done), and the totals."""
    is_done: bool
    accepted: int
    tried: int
    settled: Optional[int]
    totals: Totals


# -- what goes wrong -------------------------------------------------------------------------------------------------

class KheError(Exception):
    """What went wrong while the engine was asked."""


class Refused(KheError):
    """An edit or a question that is refused; nothing was changed. `number` and `name` are those of the refusal, as 8
    and "OffEnd"."""

    def __init__(self, number: int, name: str) -> None:
        super().__init__(number, name)
        self.number = number
        self.name = name

    def __str__(self) -> str:
        return f"{self.number} {self.name}"


class NoReading(KheError):
    """A line that is no line of a script; nothing was changed. `line` is its number among the session's lines, from
    1; `number` and `name` are those of the fault, as 2 and "BadCount"."""

    def __init__(self, line: int, number: int, name: str) -> None:
        super().__init__(line, number, name)
        self.line = line
        self.number = number
        self.name = name

    def __str__(self) -> str:
        return f"line {self.line}: {self.number} {self.name}"


class Ended(KheError):
    """The session is over: it was closed, the program has ended, or memory ran out. `status` is the status of the
    program or of the library's call, and `text` what was written last. The statuses stand in docs/manual.md: 4 where
    the archive can't be read, 6 where memory ran out. `archive` is the name of the archive's file where it was opened
    in vain, and else None."""

    def __init__(self, status: int, text: str) -> None:
        super().__init__(status, text)
        self.status = status
        self.text = text
        self.archive: Optional[str] = None

    def __str__(self) -> str:
        of = "" if self.archive is None else f"{self.archive}: "
        cause = f": {self.text}" if self.text else ": it can't be read" if self.status == 4 else ""
        return f"{of}status {self.status}{cause}"


class ArchiveRefused(Ended):
    """The archive, or its solution, is refused. `text` is the line that says so, as
    "khe: archive refused: 19 Invalid 1 TooLong entry 1"; its number is `number`, its name is `name`, and what stands
    after that is `rest`. As text it is the name of the file and that line."""

    def __init__(self, status: int, text: str) -> None:
        super().__init__(status, text)
        number, self.name, *rest = text.rpartition("refused: ")[2].split(" ", 2)
        self.number = int(number)
        self.rest = rest[0] if rest else ""

    def __str__(self) -> str:
        return self.text if self.archive is None else f"{self.archive}: {self.text}"


# -- the doors -------------------------------------------------------------------------------------------------------

class _Door(Protocol):
    """A way to an engine. A line has no line feed at its end, and its answer is bytes: no line or many, each with a
    line feed. Calls of several threads take turns by the lock."""
    is_ended: bool
    lock: Any

    def answer(self, line: bytes) -> bytes:
        """The answer to a line."""

    def answer_slowly(self, line: bytes) -> bytes:
        """The answer to a line that may take long; other threads go on meanwhile."""

    def answers(self, lines: Sequence[bytes]) -> list[bytes]:
        """The answers to lines, which are fewer than `BATCH` bytes together, or one line."""

    def totals(self) -> Totals:
        """The totals of the timetable as it stands."""

    def close(self) -> None:
        """Ends the session. A second time it does nothing."""


# How many bytes of lines are sent before their answers are read. A pipe that is empty takes as many without waiting
# for its reader on any system; with more, program and session could wait for each other.
BATCH = 4096

# How many bytes are read at once where most answers are short, and where there are many or a long one.
SHORT, LONG = 1 << 12, 1 << 16

_STOP = re.compile(rb"^\.\n", re.MULTILINE)
_LINE_FEED = "a line feed inside a line"
_SESSION_CLOSED = "the session is closed"


def _stay() -> set[int]:
    """Lets this thread run on the processor alone that it is on, and answers those on which it might run before."""
    before = os.sched_getaffinity(0)
    with open("/proc/thread-self/stat") as file:
        # The processor is the 39th field; the second one is a name in parentheses.
        present = int(file.read().rpartition(")")[2].split()[36])
    os.sched_setaffinity(0, {present})
    return before


class _Talk:
    """The program `khe-talk`: an answer ends with a line that holds one full stop alone, and no other line of an
    answer is that."""

    def __init__(self, words: Sequence[str], one_processor: bool) -> None:
        self.is_ended = False
        self.lock = threading.RLock()
        # The program runs where this thread may run.
        self._processors = _stay() if one_processor else None
        try:
            self._process = subprocess.Popen(words, stdin=subprocess.PIPE, stdout=subprocess.PIPE, bufsize=0)
        except BaseException:
            self._leave_processor()
            raise
        assert self._process.stdin is not None and self._process.stdout is not None
        self._to = self._process.stdin.fileno()
        self._from = self._process.stdout.fileno()
        # A session that is forgotten ends its program too.
        self._end = weakref.finalize(self, self._end_program, self._process)
        # An empty line, which has no answer, shows whether the archive and the solution were taken. So the program
        # counts one line more than the session has asked.
        self.answer(b"")

    def answer(self, line: bytes) -> bytes:
        if b"\n" in line:
            raise ValueError(_LINE_FEED)
        with self.lock:
            try:
                line += b"\n"
                sent = _write(self._to, line)
                if sent != len(line):
                    self._send(line[sent:])
                answer = _read(self._from, SHORT)
                if answer[-3:] != b"\n.\n":
                    answer = self._whole(answer)
            except BaseException as error:
                self._fail(error)
        return answer[:-2] if answer[:5] != b"line " else self._renumbered(answer[:-2])

    def answer_slowly(self, line: bytes) -> bytes:
        return self.answer(line)

    def answers(self, lines: Sequence[bytes]) -> list[bytes]:
        if any(b"\n" in line for line in lines):
            raise ValueError(_LINE_FEED)
        with self.lock:
            try:
                self._send(b"\n".join(lines) + b"\n")
                return self._read_answers(len(lines))
            except BaseException as error:
                self._fail(error)

    def totals(self) -> Totals:
        words = self.answer(b"total").split()
        return Totals(int(words[2]), int(words[4]))

    def close(self) -> None:
        with self.lock:
            # From now on the numbers of the pipes are none, lest they be those of other files.
            self.is_ended = True
            self._to = self._from = -1
            self._end()
            self._leave_processor()

    def _leave_processor(self) -> None:
        if self._processors:
            os.sched_setaffinity(0, self._processors)
            self._processors = None

    @staticmethod
    def _end_program(process: subprocess.Popen[bytes]) -> None:
        """Closes the pipes, at which a program that waits for a line ends, and waits for that."""
        for pipe in (process.stdin, process.stdout):
            if pipe is not None:
                pipe.close()
        process.wait()

    def _send(self, question: bytes) -> None:
        """Writes all of it. A write may stop early where a signal came."""
        while question:
            question = question[_write(self._to, question):]

    def _whole(self, piece: bytes) -> bytes:
        """The whole answer that this piece begins, with its full stop."""
        pieces, tail = [piece], piece[-3:]
        while tail not in (b"\n.\n", b".\n"):
            piece = _read(self._from, LONG)
            if not piece:
                self._fail_on_end(b"".join(pieces))
            pieces.append(piece)
            tail = (tail + piece)[-3:]
        return b"".join(pieces)

    def _read_answers(self, count: int) -> list[bytes]:
        """So many answers, the lines of which are under way."""
        answers: list[bytes] = []
        pieces: list[bytes] = []
        rest = b""
        while len(answers) < count:
            piece = _read(self._from, LONG)
            if not piece:
                self._fail_on_end(b"".join(pieces) + rest)
            rest += piece
            end = rest.rfind(b"\n") + 1
            first, *others = _STOP.split(rest[:end])
            rest = rest[end:]
            pieces.append(first)
            for other in others:
                answers.append(b"".join(pieces))
                pieces = [other]
        return [answer if answer[:5] != b"line " else self._renumbered(answer) for answer in answers]

    @staticmethod
    def _renumbered(answer: bytes) -> bytes:
        """The line on a fault with the number of its line among those of the session."""
        _, number, rest = answer.split(b" ", 2)
        return b"line %d %s" % (int(number) - 1, rest)

    def _fail(self, error: BaseException) -> NoReturn:
        """Ends the session after an error amid a question: what would be read next is not known any more."""
        if isinstance(error, Ended):
            raise error
        if self.is_ended:
            raise Ended(self._process.returncode, _SESSION_CLOSED) from None
        if isinstance(error, BrokenPipeError):
            self._fail_on_end(b"".join(iter(lambda: _read(self._from, LONG), b"")))
        self._process.kill()
        self.close()
        raise error

    def _fail_on_end(self, text: bytes) -> NoReturn:
        """Says how the program has ended, of whose last answer these bytes were read."""
        self.close()
        status = self._process.returncode
        last = text.decode(errors="replace").rstrip("\n")
        if status == 3 and "refused: " in last:
            raise ArchiveRefused(status, last)
        raise Ended(status, last)


class _Handle(ctypes.Structure):
    """A handle of the library."""
    _fields_ = [("at", ctypes.c_void_p), ("is_open", ctypes.c_bool)]


class _Costs(ctypes.Structure):
    """The totals as the library tells them."""
    _fields_ = [(name, ctypes.c_uint64) for name in ("hard_high", "hard_low", "soft_high", "soft_low")]


# The library's statuses.
_DONE, _REFUSED, _NO_MEMORY, _NO_ROOM = 0, 3, 6, 9


class _Calls:
    """The functions of the library, with their types."""

    def __init__(self, path: str) -> None:
        size, handle = ctypes.c_size_t, ctypes.POINTER(_Handle)
        length = ctypes.POINTER(ctypes.c_uint64)
        # Opening and some lines take long, so other threads run meanwhile. Other calls are short, and it would take
        # longer to let other threads run.
        free, held = ctypes.CDLL(path), ctypes.PyDLL(path)
        self.open = self._call(free.khe_open, ctypes.c_char_p, size, ctypes.c_uint32, handle)
        self.long_line = self._call(free.khe_line, handle, ctypes.c_char_p, size, ctypes.c_char_p, size, length)
        self.line = self._call(held.khe_line, handle, ctypes.c_char_p, size, ctypes.c_char_p, size, length)
        self.answer = self._call(held.khe_answer, handle, ctypes.c_char_p, size, length)
        self.totals = self._call(held.khe_totals, handle, ctypes.POINTER(_Costs))
        self.close = self._call(held.khe_close, handle)

    @staticmethod
    def _call(function: Any, *types: Any) -> Callable[..., int]:
        function.argtypes = types
        function.restype = ctypes.c_uint32
        call: Callable[..., int] = function
        return call


class _Library:
    """The engine in this process, by the calls of the shared library. Answers are copied into one room, which grows
    where one is longer."""

    def __init__(self, path: str, archive: bytes, solution: int) -> None:
        self.is_ended = False
        self.lock = threading.RLock()
        self._at = ctypes.byref(_Handle())
        self._length = ctypes.c_uint64()
        self._length_at = ctypes.byref(self._length)
        self._costs = _Costs()
        self._costs_at = ctypes.byref(self._costs)
        self._make_room(LONG)
        calls = _Calls(path)
        self._line, self._long_line, self._again, self._totals = calls.line, calls.long_line, calls.answer, calls.totals
        status = calls.open(archive, len(archive), solution, self._at)
        # What the handle holds is given back by `close`, or else when this door is forgotten.
        self._give_back = weakref.finalize(self, calls.close, self._at)
        if status == _REFUSED:
            self._again(self._at, self._room, self._size, self._length_at)
            refusal = self._room[:self._length.value].decode(errors="replace").rstrip("\n")
            self.close()
            raise ArchiveRefused(status, refusal)
        if status != _DONE:
            self._fail(status)

    def answer(self, line: bytes) -> bytes:
        if b"\n" in line:
            raise ValueError(_LINE_FEED)
        return self._answered(self._line, line)

    def answer_slowly(self, line: bytes) -> bytes:
        if b"\n" in line:
            raise ValueError(_LINE_FEED)
        return self._answered(self._long_line, line)

    def _answered(self, call: Callable[..., int], line: bytes) -> bytes:
        with self.lock:
            status = call(self._at, line, len(line), self._room, self._size, self._length_at)
            if status:
                self._take_long(status)
            answer: bytes = self._room[:self._length.value]
            return answer

    def answers(self, lines: Sequence[bytes]) -> list[bytes]:
        return [self.answer(line) for line in lines]

    def totals(self) -> Totals:
        with self.lock:
            status = self._totals(self._at, self._costs_at)
            if status:
                self._fail(status)
            costs = self._costs
            return Totals(costs.hard_high << 64 | costs.hard_low, costs.soft_high << 64 | costs.soft_low)

    def close(self) -> None:
        with self.lock:
            self.is_ended = True
            self._give_back()

    def _make_room(self, size: int) -> None:
        self._size = size
        self._room: Any = (ctypes.c_char * size)()

    def _take_long(self, status: int) -> None:
        """Takes an answer for which the room was too small into a larger one."""
        if status != _NO_ROOM:
            self._fail(status)
        self._make_room(2 * self._length.value)
        status = self._again(self._at, self._room, self._size, self._length_at)
        if status:
            self._fail(status)

    def _fail(self, status: int) -> NoReturn:
        """Says why a call did nothing."""
        text = _SESSION_CLOSED if self.is_ended else "memory ran out" if status == _NO_MEMORY else ""
        self.close()
        raise Ended(status, text)


#: The folder of this package.
_HERE = os.path.dirname(os.path.realpath(__file__))


def _program_words(program: Union[str, Sequence[str], None]) -> list[str]:
    """The words that begin the program."""
    if program is None:
        program = os.environ.get("KHE_TALK")
    if program is None:
        within = os.path.join(os.path.dirname(os.path.dirname(_HERE)), "khe-talk")
        program = within if os.access(within, os.X_OK) else shutil.which("khe-talk")
        if program is None:
            raise KheError("the program khe-talk was not found; set KHE_TALK")
        return [program]
    if not isinstance(program, str):
        return list(program)
    return [program] if os.path.isfile(program) else shlex.split(program)


def _installed_library() -> Optional[str]:
    """The shared library that was installed with this package, or None."""
    path = os.path.join(_HERE, "libkhe.so")
    return path if os.path.exists(path) else None


def _opened(archive: Union[str, os.PathLike[str]], solution: int, program: Union[str, Sequence[str], None],
            library: Union[str, os.PathLike[str], None], demands: bool, one_processor: bool) -> _Door:
    """The door that is asked for."""
    if not 0 <= solution < 1 << 32:
        raise ValueError(f"no number of a solution: {solution}")
    if program is not None and library is not None:
        raise ValueError("a session has one door: program or library")
    if library is not None and demands:
        raise ValueError("demands are kept by the program alone")
    if program is None and library is None and "KHE_TALK" not in os.environ and not (demands or one_processor):
        library = _installed_library()
    try:
        if library is None:
            options = ["--demands"] if demands else []
            return _Talk([*_program_words(program), os.fspath(archive), str(solution), *options], one_processor)
        with open(archive, "rb") as file:
            content = file.read()
        # A name without a slash is looked for where the system keeps libraries, unless it is that of a file here.
        path = os.path.abspath(library) if os.path.exists(library) else os.fspath(library)
        return _Library(path, content, solution)
    except Ended as error:
        error.archive = os.fspath(archive)
        raise


# -- reading answers -------------------------------------------------------------------------------------------------

_REFUSAL = re.compile(r"refused (\d+) (\S+)")
_FAULT = re.compile(r"line (\d+) fault (\d+) (\S+)")
_MONITOR = re.compile(r'monitor (\d+) (\S+) "([^"]*)" (.*) deviation (\d+) (hard|soft) (\d+)( detached)?')
_MEET = re.compile(r'meet (\d+) event "([^"]*)" duration (\d+) time (\d+|-)')
_REPAIR = re.compile(r"<!-- khe repair (done|spent) accepted (\d+) tried (\d+)(?: settled (\d+))? hard (\d+) soft (\d+) -->")
_REFERENCES = (("&#9;", "\t"), ("&#10;", "\n"), ("&#13;", "\r"), ("&lt;", "<"), ("&gt;", ">"), ("&quot;", '"'), ("&amp;", "&"))


def _raise_refusal(line: str) -> None:
    """Raises what a line says that was not done."""
    if refusal := _REFUSAL.fullmatch(line):
        raise Refused(int(refusal[1]), refusal[2])
    if fault := _FAULT.fullmatch(line):
        raise NoReading(int(fault[1]), int(fault[2]), fault[3])


def _matched(form: re.Pattern[str], line: str) -> re.Match[str]:
    """The parts of a line of this form."""
    match = form.fullmatch(line)
    if match is None:
        raise KheError(f"an answer that was not expected: {line!r}")
    return match


def _unescaped(text: str) -> str:
    """An Id as the archive has it."""
    if "&" in text:
        for reference, sign in _REFERENCES:
            text = text.replace(reference, sign)
    return text


def _number(word: str) -> Optional[int]:
    """A number, or None for a dash."""
    return None if word == "-" else int(word)


def _monitor(line: str) -> Monitor:
    """The monitor of its line."""
    number, kind, constraint, point, deviation, part, cost, detached = _matched(_MONITOR, line).groups()
    return Monitor(int(number), kind, _unescaped(constraint), point, int(deviation), int(cost), part == "hard",
                   detached is not None)


# -- a session -------------------------------------------------------------------------------------------------------

class Mark:
    """A mark for a block. Where the block is left, the state at its begin comes back, unless :meth:`keep` was called
    and no error is under way; either way the mark is closed, and each that was opened inside it."""

    def __init__(self, session: Session) -> None:
        self._session = session
        self._depth = 0
        self._is_kept = False

    def keep(self) -> None:
        """Keeps what was done since the mark was opened, once its block is left."""
        self._is_kept = True

    def undo(self) -> None:
        """Goes back to the state at the mark's begin. The mark stays open."""
        self._session.undo_to(self._depth)

    def __enter__(self) -> Mark:
        self._session.begin()
        self._depth = self._session.marks
        return self

    def __exit__(self, kind: Optional[type[BaseException]], value: Optional[BaseException],
                 trace: Optional[TracebackType]) -> None:
        session = self._session
        if session.is_ended or session.marks < self._depth:
            return
        if kind is not None or not self._is_kept:
            session.undo_to(self._depth)
        while session.marks >= self._depth:
            session.end()


class Session:
    """One solution of an archive, in an engine of its own.

    `archive` is a file's name, `solution` the number of a solution in it, from 0. `program` is the program `khe-talk`,
    as the name of its file, a string of words or a list of them, and `library` the file of the shared library. Where
    both are left out, one of them is looked for, and the program where `demands` or `one_processor` asks for it. With
    `demands` the program keeps what :meth:`deficit` asks for, so that it answers at once.

    Over the program a line and its answer cost two changes from one process to the other, which are several times as
    fast where both run on one processor. With `one_processor` they do: this thread stays on the processor that it is on
    until the session is closed, and threads and programs that it begins meanwhile stay there too (Linux alone).

    An archive or a solution that is refused raises :class:`ArchiveRefused`, and one that can't be read :class:`Ended`
    or, by the library, OSError. Leaving the block of a session closes it, and with it goes what was done; each later
    call raises :class:`Ended`. Several threads may call a session: the calls take turns, so one waits while another
    repairs, and a mark takes back what others did since it was opened. Several sessions stand side by side."""

    def __init__(self, archive: Union[str, os.PathLike[str]], solution: int, *,
                 program: Union[str, Sequence[str], None] = None,
                 library: Union[str, os.PathLike[str], None] = None, demands: bool = False,
                 one_processor: bool = False) -> None:
        self._door = _opened(archive, solution, program, library, demands, one_processor)
        #: The answer to one line of a script, as bytes: no line or many, each with a line feed at its end. The line
        #: is bytes without a line feed. This is the fast way, and raises neither for a refusal nor for a line without
        #: a reading: their lines are answers. Marks that are opened or closed so are not counted in `marks`.
        self.answer: Callable[[bytes], bytes] = self._door.answer
        #: How many marks are open.
        self.marks = 0

    # -- the conversation --------------------------------------------------------------------------------------------

    @property
    def is_ended(self) -> bool:
        """Whether the session is over."""
        return self._door.is_ended

    def ask(self, line: str) -> list[str]:
        """The lines of the answer to one line of a script.

        A refused edit or question raises :class:`Refused`, a line without a reading :class:`NoReading`."""
        answer = self.answer(line.encode()).decode()
        lines = answer.split("\n")[:-1]
        if lines:
            _raise_refusal(lines[0])
        return lines

    def answers(self, lines: Iterable[bytes]) -> Iterator[bytes]:
        """The answers to many lines, as :attr:`answer` gives that to one. Some hundred lines are sent before their
        answers are read, and this is several times as fast over pipes: so what an answer says can't decide on the
        next line. Where the iterator is left early, some lines were carried out whose answers were not taken."""
        batch: list[bytes] = []
        size = 0
        for line in lines:
            if size + len(line) >= BATCH and batch:
                yield from self._door.answers(batch)
                batch, size = [], 0
            batch.append(line)
            size += len(line) + 1
        if batch:
            yield from self._door.answers(batch)

    def close(self) -> None:
        """Ends the session. What was done in it is lost, unless it was taken by :meth:`archive`."""
        self._door.close()

    def __enter__(self) -> Session:
        return self

    def __exit__(self, kind: Optional[type[BaseException]], value: Optional[BaseException],
                 trace: Optional[TracebackType]) -> None:
        self.close()

    def _done(self, line: str) -> None:
        """Carries out an edit."""
        answer = self.answer(line.encode())
        if answer != b"ok\n":
            text = answer.decode().rstrip("\n")
            _raise_refusal(text)
            raise KheError(f"an answer that was not expected: {text!r}")

    def _made(self, line: str) -> int:
        """Carries out an edit that makes something, and answers its number."""
        return int(self.ask(line)[0].split(" ")[1])

    # -- edits -------------------------------------------------------------------------------------------------------

    def assign(self, meet: int, time: int) -> None:
        """Gives a meet without a start this one."""
        self._done(f"assign {meet} {time}")

    def unassign(self, meet: int) -> None:
        """Takes a meet's start away."""
        self._done(f"unassign {meet}")

    def move(self, meet: int, time: int) -> None:
        """Gives a meet another start."""
        self._done(f"move {meet} {time}")

    def split(self, meet: int, cut: int) -> int:
        """Leaves a meet its first `cut` times, and answers the number of the meet that is made of the others."""
        return self._made(f"split {meet} {cut}")

    def merge(self, meet: int, other: int) -> None:
        """Adds another meet to a meet; the other one is gone."""
        self._done(f"merge {meet} {other}")

    def swap(self, meet: int, other: int) -> None:
        """Exchanges the starts of two meets."""
        self._done(f"swap {meet} {other}")

    def give(self, meet: int, place: int, resource: int) -> None:
        """Gives a task without a resource this one."""
        self._done(f"give {meet} {place} {resource}")

    def take(self, meet: int, place: int) -> None:
        """Takes a task's resource away."""
        self._done(f"take {meet} {place}")

    def regive(self, meet: int, place: int, resource: int) -> None:
        """Gives a task another resource."""
        self._done(f"regive {meet} {place} {resource}")

    def trade(self, meet: int, place: int, other: int, other_place: int) -> None:
        """Exchanges the resources of two tasks."""
        self._done(f"trade {meet} {place} {other} {other_place}")

    def attach(self, monitor: int) -> None:
        """Lets a monitor count again."""
        self._done(f"attach {monitor}")

    def detach(self, monitor: int) -> None:
        """Lets a monitor cost nothing."""
        self._done(f"detach {monitor}")

    def group(self) -> int:
        """Makes a group of monitors, and answers its number."""
        return self._made("group")

    def drop(self, group: int) -> None:
        """Removes a group that has no monitors."""
        self._done(f"drop {group}")

    def add(self, group: int, monitor: int) -> None:
        """Adds a monitor to a group."""
        self._done(f"add {group} {monitor}")

    def remove(self, group: int, monitor: int) -> None:
        """Takes a monitor out of a group."""
        self._done(f"remove {group} {monitor}")

    # -- marks -------------------------------------------------------------------------------------------------------

    def mark(self) -> Mark:
        """A mark as the context of a block: see :class:`Mark`."""
        return Mark(self)

    def begin(self) -> None:
        """Opens a mark."""
        with self._door.lock:
            self._done("begin")
            self.marks += 1

    def end(self) -> None:
        """Closes the innermost mark and keeps what was done."""
        with self._door.lock:
            self._done("end")
            self.marks -= 1

    def undo(self) -> None:
        """Goes back to the state at the innermost mark, which stays open."""
        self._done("undo")

    def undo_to(self, depth: int) -> None:
        """Goes back to the state at the mark of this depth, counted from 1 at the outermost, and closes those
        inside it."""
        with self._door.lock:
            self._done(f"undoto {depth}")
            self.marks = depth

    # -- questions ---------------------------------------------------------------------------------------------------

    def totals(self) -> Totals:
        """The timetable's totals."""
        return self._door.totals()

    def group_totals(self, group: int) -> Totals:
        """What the monitors of a group cost together."""
        words = self.ask(f"groupcost {group}")[0].split(" ")
        return Totals(int(words[3]), int(words[5]))

    def monitor(self, number: int) -> Monitor:
        """One monitor."""
        return _monitor(self.ask(f"monitor {number}")[0])

    def monitors(self) -> list[Monitor]:
        """All monitors, in the order of their numbers."""
        return [_monitor(line) for line in self.ask("monitors")[:-1]]

    def meets(self) -> list[Meet]:
        """All meets, in the order of their numbers."""
        found: list[Meet] = []
        tasks: list[Optional[int]] = []
        for line in reversed(self.ask("show")):
            if line.startswith("task "):
                tasks.append(_number(line.rpartition(" ")[2]))
            else:
                number, event, duration, time = _matched(_MEET, line).groups()
                found.append(Meet(int(number), _unescaped(event), int(duration), _number(time), tuple(reversed(tasks))))
                tasks = []
        found.reverse()
        return found

    def deficit(self) -> Deficit:
        """How many demands must go without in any case, and those that compete."""
        first, *rest = (line.split(" ") for line in self.ask("deficit"))
        return Deficit(int(first[1]), tuple((kind, *map(int, numbers)) for kind, *numbers in rest))

    # -- beyond scripts ----------------------------------------------------------------------------------------------

    def repair(self, depth: int, budget: int, diversifier: int = 0) -> Repaired:
        """Repairs the timetable by chains of at most `depth` moves, of which `budget` may be tried; lists begin at
        their place `diversifier`. No mark may be open. The totals are never higher than before. An interrupt ends the
        session over the program; the library comes back first."""
        line = self._door.answer_slowly(f"repair {depth} {budget} {diversifier}".encode()).decode().rstrip("\n")
        _raise_refusal(line)
        end, accepted, tried, settled, hard, soft = _matched(_REPAIR, line).groups()
        return Repaired(end == "done", int(accepted), int(tried), None if settled is None else int(settled),
                        Totals(int(hard), int(soft)))

    def archive(self) -> bytes:
        """The archive in its canonical spelling, with the timetable in the solution's place."""
        return self._door.answer_slowly(b"archive")


# -- as a program ----------------------------------------------------------------------------------------------------

def _expect(what: str, holds: bool) -> None:
    """Ends the program where something does not hold."""
    if not holds:
        raise SystemExit(f"khe: {what}")


def _look_at(session: Session) -> None:
    """Asks each kind of question, and compares answers that have to agree."""
    before = session.totals()
    monitors = session.monitors()
    meets = session.meets()
    deficit = session.deficit()
    hard = sum(monitor.cost for monitor in monitors if monitor.is_hard)
    _expect("the costs do not add up to the totals", (hard, sum(monitor.cost for monitor in monitors) - hard) == before)
    with session.mark():
        group = session.group()
        for monitor in monitors[:3]:
            _expect("a monitor and its line in the list differ", session.monitor(monitor.number) == monitor)
            session.detach(monitor.number)
            session.add(group, monitor.number)
        _expect("a group of detached monitors costs something", session.group_totals(group) == (0, 0))
        for meet in meets:
            try:
                session.unassign(meet.number)
            except Refused as refused:
                _expect("an edit was refused for no cause of its row", refused.name in ("Fixed", "NotAssigned"))
    _expect("a mark did not take all of it back", (session.totals(), session.meets()) == (before, meets))
    try:
        session.ask("fly 3")
        _expect("a line without a reading was read", False)
    except NoReading as fault:
        _expect("the fault of a line has another name", fault.name == "UnknownCommand")
    print(f"totals hard {before.hard} soft {before.soft}, {len(meets)} meets, {len(monitors)} monitors, "
          f"deficit {deficit.deficit}")


def _measure(session: Session, lines: int) -> None:
    """Says how many lines a second are answered: one by one, and sent ahead."""
    from time import perf_counter
    answer = session.answer
    begun = perf_counter()
    for _ in range(lines):
        answer(b"total")
    single = perf_counter() - begun
    begun = perf_counter()
    for _ in session.answers(b"total" for _ in range(lines)):
        pass
    ahead = perf_counter() - begun
    print(f"{lines / single:.0f} lines a second, each answered before the next; {lines / ahead:.0f} sent ahead")


def main() -> None:
    """Looks at a session, by the words of the command line."""
    import argparse
    parser = argparse.ArgumentParser(description="asks a session of khe each kind of question, and measures it")
    parser.add_argument("archive")
    parser.add_argument("solution", type=int)
    parser.add_argument("--program", help="the program khe-talk")
    parser.add_argument("--library", help="the shared library, in place of the program")
    parser.add_argument("--one-processor", action="store_true", help="with the program on the processor of this one")
    parser.add_argument("--lines", type=int, default=100000, help="how many lines to measure with")
    words = parser.parse_args()
    try:
        with Session(words.archive, words.solution, program=words.program, library=words.library,
                     one_processor=words.one_processor) as session:
            _look_at(session)
            _measure(session, words.lines)
    except (KheError, OSError) as error:
        raise SystemExit(f"khe: {error}") from None


if __name__ == "__main__":
    main()
