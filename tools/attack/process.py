"""What the process meets: standard output that nobody reads, and a start without its zone."""

import contextlib
import os
import time

from harness import RULED, case, fail_if
from peers import ask


class FullPipe:
    """A pipe that is full and that nobody reads."""

    def __init__(self):
        self.read_end, self.write_end = os.pipe()
        os.set_blocking(self.write_end, False)
        with contextlib.suppress(BlockingIOError):
            while True:
                os.write(self.write_end, bytes(4096))
        os.set_blocking(self.write_end, True)

    def fileno(self):
        return self.write_end

    def is_full(self):
        os.set_blocking(self.write_end, False)
        try:
            return os.write(self.write_end, b"\0") == 0
        except BlockingIOError:
            return True
        finally:
            os.set_blocking(self.write_end, True)

    def close(self):
        os.close(self.read_end)
        os.close(self.write_end)


@case(others=True, stdout=FullPipe)
def unread_pipe(it):
    """Standard output is a pipe that is full and that nobody reads, and 30 changes each write a line."""
    times = []

    def change():
        for number in range(30):
            times.append(it.takes_change(f"line{number}.example"))

    yield change
    times.append(it.takes_change("last.example"))
    fail_if(not it.stdout.is_full(), "the pipe wasn't full")
    return f"a change was in force {1000 * max(times):.0f} ms behind its NOTIFY"


@case(others=True, is_held=True, options=("--hold", "0"))
def held_back(it):
    """With --hold nothing is answered before the zone is there, and everything once it is."""
    end = time.monotonic() + 2
    while time.monotonic() < end:
        fail_if(ask(it.port, RULED[0], 0.3) is not None, "a query was answered before the zone was there")
    fail_if(it.primary.requests == 0, "the zone wasn't asked for")
    it.primary.is_stopped = False
    begun = time.monotonic()
    it.server.wait_for(RULED[0], 3, 40)
    took = time.monotonic() - begun
    it.warm()
    yield
    return f"answered {took:.1f} s behind the zone, and never before"


CASES = [
    unread_pipe,
    held_back,
]
