"""jsgen prints JavaScript: a job goes in, a syntax tree in JSON, or a flat one (docs/FORMAT.md), and its text comes out.

The calls are those of the shared library libjsgen.so: the one that the variable JSGEN_SHARED names, or else the one beside this file,
as an installed wheel has it, or else the one that the system's loader finds. Any number of threads may call at once: a call lets go
of the interpreter's lock.
"""
import ctypes
import json
import os
import threading
from typing import Any, Callable, Dict, List, NamedTuple, Optional, Union

__all__ = ["JsgenError", "Built", "print_job", "map_job", "legal_job", "build_job", "check_job"]

Job = Union[str, bytes, bytearray, memoryview, Dict[str, Any]]

_DONE, _REFUSED, _NOT_JOB, _MEMORY, _TOO_LONG, _BUFFER_TOO_SMALL, _CANNOT_RUN = 0, 1, 3, 6, 7, 8, 70
_RULES = {1: "Place", 2: "Name", 3: "Literal", 4: "Template", 5: "Span", 6: "Comment", 7: "Indent"}
_FAULTS = {11: "Json", 12: "Float", 13: "Missing", 14: "Wrong", 15: "Child", 16: "Shared"}
_LINES = {_MEMORY: "out of memory", _TOO_LONG: "input too long"}

# A call goes down the tree on its stack. The rows of a job are its levels at most, so the stack is so many bytes for each byte of a job in
# JSON, or for each row of a flat job, and some more: the README of bindings/node has what a level takes.
_STACK_FOR_BYTE = 160
_STACK_FOR_ROW = 8 << 10
# A flat job (docs/FORMAT.md): how it begins, how long its head is, where that says how many rows there are, and the bytes of a row at least.
_FLAT_BEGIN = b"JSGF"
_FLAT_HEAD = 32
_FLAT_ROW_COUNT = slice(8, 12)
_FLAT_LEAST_ROW = 12
_STACK_BESIDE = 16 << 20
_STACK_UNIT = 1 << 20
_LONGEST_JOB = 33554432

# Held while threads are started by a stack size that isn't the program's own.
_starting = threading.Lock()


class _Answer(ctypes.Structure):
    _fields_ = [
        ("text_length", ctypes.c_size_t),
        ("row", ctypes.c_size_t),
        ("field", ctypes.c_size_t),
        ("has_row", ctypes.c_uint32),
        ("start", ctypes.c_uint32),
        ("rule", ctypes.c_uint32),
    ]


class _BuildAnswer(ctypes.Structure):
    _fields_ = [
        ("code_length", ctypes.c_size_t),
        ("map_length", ctypes.c_size_t),
        ("legal_length", ctypes.c_size_t),
        *_Answer._fields_[1:],
    ]


class Built(NamedTuple):
    """All that is made of a job: its code, the lines of its source map, and those of its licences that stand in a file of their own."""

    code: str
    map: str
    licences: str


class JsgenError(Exception):
    """A job that isn't printed. Its message is the line that the program says.

    `status` is 1 where the tree breaks a rule, 3 where the bytes are no job, 6 for want of memory, 7 where the job is too long, 70 where
    there is no stack for it; `rule` is the name of what is wrong, or None; `start` the start of the node that breaks a rule, in bytes
    of the source; `row` and `field` are where the bytes are no job, as far as it has these: a field without a row is one of the job's
    head.
    """

    def __init__(
        self,
        line: str,
        status: int,
        rule: Optional[str] = None,
        start: Optional[int] = None,
        row: Optional[int] = None,
        field: Optional[int] = None,
    ) -> None:
        super().__init__(line)
        self.status = status
        self.rule = rule
        self.start = start
        self.row = row
        self.field = field

    # As another process gets it.
    def __reduce__(self) -> Any:
        return JsgenError, (str(self), self.status, self.rule, self.start, self.row, self.field)


def _error_of(status: int, answer: Union[_Answer, _BuildAnswer]) -> JsgenError:
    if status == _REFUSED:
        rule = _RULES.get(answer.rule)
        return JsgenError(f"refused: {rule} at {answer.start}", status, rule, start=answer.start)
    if status == _NOT_JOB:
        rule = _FAULTS.get(answer.rule)
        row = answer.row if answer.has_row and rule != "Json" else None
        field = answer.field if rule not in ("Json", "Shared") else None
        where = "" if rule == "Json" else " head" if row is None else f" row {row}"
        return JsgenError(f"not a job: {rule}{where}" + ("" if field is None else f" field {field}"), status, rule, row=row, field=field)
    return JsgenError(_LINES.get(status, f"status {status}"), status)


def _library_path() -> str:
    beside = os.path.join(os.path.dirname(os.path.abspath(__file__)), "libjsgen.so")
    return os.environ.get("JSGEN_SHARED") or (beside if os.path.exists(beside) else "libjsgen.so")


def _loaded() -> ctypes.CDLL:
    path = _library_path()
    bytes_in = [ctypes.c_char_p, ctypes.c_size_t]
    try:
        library = ctypes.CDLL(path)
        for name in ("print", "map", "legal"):
            call = getattr(library, f"jsgen_{name}_job")
            call.argtypes = [*bytes_in, ctypes.c_char_p, ctypes.c_size_t, ctypes.POINTER(_Answer)]
            call.restype = ctypes.c_uint32
        library.jsgen_build_job.argtypes = [*bytes_in, ctypes.c_char_p, ctypes.c_size_t, ctypes.POINTER(_BuildAnswer)]
        library.jsgen_build_job.restype = ctypes.c_uint32
        library.jsgen_check_job.argtypes = [*bytes_in, ctypes.POINTER(_Answer)]
        library.jsgen_check_job.restype = ctypes.c_uint32
    except (OSError, AttributeError) as error:
        looked = "the variable JSGEN_SHARED, a libjsgen.so beside the module, and the system's loader are asked, in this order"
        raise ImportError(f"jsgen: the library {path} can't be loaded: {error} ({looked})", name="jsgen", path=path) from None
    return library


_library = _loaded()


def _bytes_of(job: Job) -> bytes:
    if isinstance(job, dict):
        return json.dumps(job, separators=(",", ":")).encode("ascii")
    if isinstance(job, str):
        return job.encode("utf-8", "surrogatepass")
    if isinstance(job, (bytes, bytearray, memoryview)):
        return bytes(job)
    raise TypeError("a job is a str, bytes or a dict")


def _stack_of_levels(job: bytes) -> int:
    if len(job) > _LONGEST_JOB:
        return 0
    if len(job) < _FLAT_HEAD or not job.startswith(_FLAT_BEGIN):
        return len(job) * _STACK_FOR_BYTE
    rows = int.from_bytes(job[_FLAT_ROW_COUNT], "little")
    return min(rows, len(job) // _FLAT_LEAST_ROW) * _STACK_FOR_ROW


def _stack_for(job: bytes) -> int:
    size = _STACK_BESIDE + _stack_of_levels(job)
    return (size + _STACK_UNIT - 1) // _STACK_UNIT * _STACK_UNIT


# Runs the work on a thread of its own, which has the stack that the job may take: the stack of the caller's thread may be too small,
# which would end the process.
def _run_deep(job: bytes, work: Callable[[], None]) -> None:
    failures: List[BaseException] = []

    def run() -> None:
        try:
            work()
        except BaseException as error:
            failures.append(error)

    thread = threading.Thread(target=run, name="jsgen")
    with _starting:
        before = threading.stack_size(_stack_for(job))
        try:
            thread.start()
        except (RuntimeError, MemoryError) as error:
            raise JsgenError("no thread can be made that has the stack for this job", _CANNOT_RUN) from error
        finally:
            threading.stack_size(before)
    thread.join()
    if failures:
        raise failures.pop()


# The texts that a call writes one behind the other, where their lengths are the first numbers of its answer. A text is hardly ever longer
# than its job; where they don't fit, the call tells their lengths.
def _texts_of(call: Any, given: Job, answer: Union[_Answer, _BuildAnswer], count: int) -> List[str]:
    job = _bytes_of(given)
    texts: List[bytes] = []

    def work() -> None:
        room = len(job) * min(count, 2) + 64
        while True:
            buffer = ctypes.create_string_buffer(room)
            status = call(job, len(job), buffer, room, ctypes.byref(answer))
            lengths = [getattr(answer, name) for name, _ in answer._fields_[:count]]
            if status != _BUFFER_TOO_SMALL:
                break
            room = sum(lengths)
        if status != _DONE:
            raise _error_of(status, answer)
        at = ctypes.addressof(buffer)
        for length in lengths:
            texts.append(ctypes.string_at(at, length))
            at += length

    _run_deep(job, work)
    return [text.decode("utf-8") for text in texts]


def _answered(call: Any, job: Job) -> str:
    return _texts_of(call, job, _Answer(), 1)[0]


def print_job(job: Job) -> str:
    """The code of a job's program. The job is JSON, a str or bytes of UTF-8, or a dict, which is written as JSON, or the bytes of a flat job."""
    return _answered(_library.jsgen_print_job, job)


def map_job(job: Job) -> str:
    """The lines of its source map, as docs/FORMAT.md has them; empty where no path is set for one."""
    return _answered(_library.jsgen_map_job, job)


def legal_job(job: Job) -> str:
    """The lines of its licences that stand in a file of their own; empty where the options have them elsewhere."""
    return _answered(_library.jsgen_legal_job, job)


def build_job(job: Job) -> Built:
    """All of these, for which the job is read and printed once."""
    return Built(*_texts_of(_library.jsgen_build_job, job, _BuildAnswer(), 3))


def check_job(job: Job) -> None:
    """Raises a JsgenError where the job isn't one that would be printed."""
    given = _bytes_of(job)

    def work() -> None:
        answer = _Answer()
        status = _library.jsgen_check_job(given, len(given), ctypes.byref(answer))
        if status != _DONE:
            raise _error_of(status, answer)

    _run_deep(given, work)
