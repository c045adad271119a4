#!/usr/bin/env python3
"""A station that embeds the queue by ctypes, with tables of 8 waiting records and 2 clients. An hour has 3 slots, and hour 1 belongs
to the inspectors: slots 3, 4 and 5. It makes the calls of document 01's session, which end before, goes on until nothing waits and
then for reads around that hour, and says each answer in words; embed.c and embed.rs do the same.

    python3 embed.py [LIBRARY]

LIBRARY is the path of libwelsbell.so. Without it the variable WELSBELL_LIBRARY is asked, then the folder of this file, and then the
system. The header welsbell.h says what each call takes and gives.
"""
import os
import sys
from ctypes import CDLL, POINTER, Structure, byref, c_size_t, c_uint8, c_uint32, c_uint64

VERSION = 4  # the interface that this file is written for: WELSBELL_VERSION of the header
RECORDS = 8
CLIENTS = 2
SLOTS_PER_HOUR = 3
INSPECTION = 1


# The layouts of the header. Each is numbers of one width, so that there is nothing between them.
class Setup(Structure):
    _fields_ = [("clients", c_uint64), ("period", c_uint64), ("slots_per_hour", c_uint64)]


class Hours(Structure):
    """Of each of the 168 hours of a week a mark, 1 where it is open, the first hour's in the highest bit of the first byte."""

    _fields_ = [("marks", c_uint8 * 21)]

    def mark(self, hour, is_open):
        bit = 0x80 >> hour % 8
        self.marks[hour // 8] = self.marks[hour // 8] | bit if is_open else self.marks[hour // 8] & ~bit


def all_hours_open():
    return Hours((c_uint8 * 21)(*[0xFF] * 21))


class Head(Structure):
    _fields_ = [("setup", Setup), ("clock", c_uint64), ("last", c_uint64), ("waiting", c_uint64)]


class Request(Structure):
    _fields_ = [("deadline", c_uint64), ("number", c_uint64), ("client", c_uint64)]


class Client(Structure):
    _fields_ = [("submitted", c_uint32), ("served", c_uint32), ("dropped", c_uint32)]


Values = c_uint64 * 5

# Each kind of answer, and what its values say, in their order.
REFUSED = 0xFF
CHARTED = 0x88
SAYINGS = {
    0x81: "opened",
    0x82: "number {0} is kept, at place {1}, shift {2}",
    0x83: "number {0}, shift {3}, is one too many, number {1} of client {2} is dropped",
    0x84: "number {1} of client {2} is served in slot {0}",
    0x85: "nothing waits in slot {0}",
    0x86: "client {0}: {1} submitted, {2} served, {3} dropped, {4} waiting",
    CHARTED: "{0} waiting",
    0x89: "slot {0} is closed",
    REFUSED: "refused, number {0}: {reason}",
}
REASONS = {
    2: "clients are not 1 to 256",
    3: "the period is not 1 to 4294967295 slots",
    4: "the tables do not have the lengths that are needed",
    5: "head, hours and tables are not sound",
    6: "the client does not exist",
    7: "the deadline is not 1 to 65535 slots after the clock",
    8: "the client has submitted as many requests as can be counted",
    9: "the last request number has been given",
    10: "the waiting table is full",
    11: "the clock is at its end",
    12: "the output is shorter than the waiting count",
    13: "slots per hour are not 1 to 360000",
    14: "all hours are closed",
    15: "no slot from the clock to the deadline is open",
}


class Answer:
    def __init__(self, kind, values):
        self.kind = kind
        self.values = list(values)

    def __str__(self):
        return SAYINGS[self.kind].format(*self.values, reason=REASONS.get(self.values[0]))


def declare(library):
    """Gives each call its types, without which ctypes would pass every number as a C int."""
    lent = [POINTER(Head), POINTER(Hours), POINTER(Request), c_size_t, POINTER(Client), c_size_t]
    own = {
        "open": [POINTER(Setup), POINTER(Hours)],
        "submit": [c_uint64, c_uint64],
        "tick": [],
        "report": [c_uint64],
        "chart": [POINTER(c_uint64), c_size_t],
    }
    for name, arguments in own.items():
        call = getattr(library, "welsbell_" + name)
        call.argtypes = lent + arguments + [POINTER(Values)]
        call.restype = c_uint64
    library.welsbell_version.argtypes = []
    library.welsbell_version.restype = c_uint64


class Queue:
    """The head, the hours and the tables, which are the caller's: the library keeps nothing."""

    def __init__(self, library, records, clients):
        self.library = library
        self.head = Head()
        self.hours = Hours()
        self.waiting = (Request * records)()
        self.clients = (Client * clients)()

    def call(self, name, *arguments):
        values = Values()
        kind = getattr(self.library, "welsbell_" + name)(
            byref(self.head),
            byref(self.hours),
            self.waiting,
            len(self.waiting),
            self.clients,
            3 * len(self.clients),  # this length is in numbers, three a client
            *arguments,
            byref(values),
        )
        return Answer(kind, values)

    def open(self, period, slots_per_hour, hours):
        return self.call("open", byref(Setup(len(self.clients), period, slots_per_hour)), byref(hours))

    def submit(self, client, deadline):
        return self.call("submit", client, deadline)

    def tick(self):
        return self.call("tick")

    def report(self, client):
        return self.call("report", client)

    def chart(self):
        """The answer, and each waiting record with the slot in which it starts."""
        starts = (c_uint64 * len(self.waiting))()
        answer = self.call("chart", starts, len(starts))
        count = answer.values[0] if answer.kind == CHARTED else 0
        return answer, list(zip(starts[:count], self.waiting))


def library_path():
    named = sys.argv[1] if len(sys.argv) > 1 else os.environ.get("WELSBELL_LIBRARY")
    beside = os.path.join(os.path.dirname(os.path.abspath(__file__)), "libwelsbell.so")
    # A name without a folder is looked for where the system keeps its libraries, which have the interface's version in theirs.
    return named or (beside if os.path.exists(beside) else f"libwelsbell.so.{VERSION}")


def load():
    path = library_path()
    try:
        library = CDLL(path)
    except OSError as error:
        sys.exit(f"The library cannot be loaded: {error}.\nGive the path of libwelsbell.so: python3 embed.py LIBRARY")
    declare(library)
    if library.welsbell_version() != VERSION:
        sys.exit(f"the library has version {library.welsbell_version()}, this program {VERSION}")
    return library


def open_queue(queue):
    hours = all_hours_open()
    hours.mark(INSPECTION, is_open=False)
    answer = queue.open(period=100, slots_per_hour=SLOTS_PER_HOUR, hours=hours)
    print(f"open with {CLIENTS} clients, {SLOTS_PER_HOUR} slots an hour, hour {INSPECTION} closed: {answer}")


def submit(queue, client, deadline):
    print(f"client {client} submits a read with deadline {deadline}: {queue.submit(client, deadline)}")


def tick(queue):
    print(f"tick: {queue.tick()}")


def chart(queue):
    answer, reads = queue.chart()
    print(f"chart: {answer}")
    for start, read in reads:
        print(f"  slot {start}: number {read.number}, deadline {read.deadline}")


def main():
    queue = Queue(load(), RECORDS, CLIENTS)
    open_queue(queue)
    submit(queue, 0, 1)
    submit(queue, 1, 2)
    submit(queue, 1, 1)
    chart(queue)
    tick(queue)
    print(queue.report(1))
    tick(queue)
    tick(queue)
    submit(queue, 2, 9)
    submit(queue, 0, 5)
    submit(queue, 0, 9)
    submit(queue, 0, 7)
    submit(queue, 1, 7)
    tick(queue)
    chart(queue)


if __name__ == "__main__":
    main()
