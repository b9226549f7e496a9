"""Ways to have one book listed: by a program that reads it from standard input, or by a Python function.

A program is started anew for each book, straight from its file. What it gets fits into a pipe, so the whole book is lent
before the program starts; a book that is lent in pieces goes on only when the program has read what it got so far.
"""
import array
import fcntl
import importlib
import os
import select
import shutil
import signal
import termios
import time
from typing import Callable, List, NamedTuple

PIPE = 65536        # so much fits into a pipe that nobody reads


class Answer(NamedTuple):
    output: bytes
    ended: str      # "status N", "signal N", or why there is no answer


class CannotRun(Exception):
    pass


def unread(pipe: int) -> int:
    count = array.array("i", [0])
    fcntl.ioctl(pipe, termios.FIONREAD, count)
    return count[0]


def wait_until_read(pipe: int, deadline: float) -> bool:
    """False if the bytes in the pipe won't be read: the reader is gone, or too slow."""
    gone = select.poll()
    gone.register(pipe, 0)
    while unread(pipe):
        if gone.poll(1) or time.monotonic() > deadline:
            return False
    return True


def lend(book: bytes, pieces: int, pipe: int, deadline: float) -> None:
    """A reader that doesn't want the rest may go: what it prints is judged, not what it reads."""
    ends = [len(book) * k // pieces for k in range(pieces + 1)]
    try:
        for begin, end in zip(ends, ends[1:]):
            os.write(pipe, book[begin:end])
            if not wait_until_read(pipe, deadline):
                return
    except BrokenPipeError:
        pass


def drain(pipe: int, deadline: float) -> List[bytes]:
    """All that comes until the end; raises TimeoutError."""
    ready, parts = select.poll(), []
    ready.register(pipe, select.POLLIN)
    while True:
        if not ready.poll(max(0.0, deadline - time.monotonic()) * 1000):
            raise TimeoutError
        part = os.read(pipe, PIPE)
        if not part:
            return parts
        parts.append(part)


def ending(status: int) -> str:
    if os.WIFSIGNALED(status):
        return "signal %d" % os.WTERMSIG(status)
    return "status %d" % os.WEXITSTATUS(status)


def program(command: List[str], timeout: float) -> Callable[[bytes, int], Answer]:
    path = shutil.which(command[0])
    if path is None:
        raise CannotRun("there is no program %s" % command[0])

    def run(book: bytes, pieces: int) -> Answer:
        deadline = time.monotonic() + timeout
        book_out, book_in = os.pipe()
        answer_out, answer_in = os.pipe()
        if pieces == 1:
            assert os.write(book_in, book) == len(book) <= PIPE
            os.close(book_in)
        child = os.posix_spawn(path, command, os.environ, setsigdef=[signal.SIGPIPE],
                               file_actions=[(os.POSIX_SPAWN_DUP2, book_out, 0), (os.POSIX_SPAWN_DUP2, answer_in, 1)])
        os.close(book_out)
        os.close(answer_in)
        if pieces > 1:
            lend(book, pieces, book_in, deadline)
            os.close(book_in)
        try:
            output, late = b"".join(drain(answer_out, deadline)), False
        except TimeoutError:
            os.kill(child, signal.SIGKILL)
            output, late = b"", True
        os.close(answer_out)
        ended = ending(os.waitpid(child, 0)[1])
        return Answer(output, "no answer in %g s" % timeout if late else ended)

    return run


def function(path: str) -> Callable[[bytes, int], Answer]:
    """The function MODULE:NAME, from a book to its listing."""
    module, _, name = path.partition(":")
    try:
        lister = getattr(importlib.import_module(module), name)
    except (ImportError, AttributeError) as problem:
        raise CannotRun(str(problem))

    def run(book: bytes, pieces: int) -> Answer:
        try:
            return Answer(lister(book), "status 0")
        except Exception as problem:
            return Answer(b"", "exception %r" % problem)

    return run
