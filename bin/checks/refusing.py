#!/usr/bin/env python3
"""Runs a program again and again, and refuses it one allocation each time: the first, the second and so on.

  refusing.py program PROGRAM WORD..  each run prints what the program prints with all its memory, or nothing and that memory ran out (3)
                                      or that there is no device (4); both of the first happen
  refusing.py serve|join|rejoin PROGRAM FILE
                                      the same of a node that meets a scripted far side; `rejoin` is `join`, refused once for its version
  refusing.py tests PROGRAM TEST..    each run of each test of a crate of tests passes; prints for which calls memory ran out
  refusing.py --all ..                the allocations after the refused one are refused as well
  refusing.py running PID             the same of a process that runs, as the lines on standard input say: `refuse` has all that it asks for
                                      refused from then on, `refuse in TID` all that this thread of it asks for, `refuse N` the N-th time
                                      that it asks alone, and `allow` ends that. Each line is answered with how many were refused since
                                      the last `refuse`, and of how many; so is the end of the process. It ends then, or with its input

Standard input is FILE, or that of refusing.py. It prints what it counted, and the status is 0, or what went wrong, and 1.

The program is run under ptrace, on x86-64: it stops wherever it calls `rattle_alloc` or `rattle_realloc`, of which its symbol table has
the addresses. Both begin with an instruction that does nothing there (endbr64), so a breakpoint needs no single step."""

import collections
import ctypes
import multiprocessing
import os
import select
import signal
import socket
import struct
import sys
import threading
import time

sys.dont_write_bytecode = True
sys.path[0] = os.path.dirname(os.path.dirname(os.path.abspath(__file__)))

from harness.far import played  # noqa: E402, since the path has to be set first
from harness.program import node_words  # noqa: E402

TRACEME, CONT, SEIZE, KILL_AT_END, TRACE_THREADS = 0, 7, 0x4206, 0x100000, 8
GET_REGISTERS, SET_REGISTERS, SET_OPTIONS = 12, 13, 0x4200
ALL_THREADS = 0x40000000
ENTRY = 9
RAX, RDX, RIP, RSP, REGISTERS = 10, 12, 16, 19, 27
NOTHING = b"\xf3\x0f\x1e\xfa"
STOP = b"\xcc"
PATIENCE = 60

libc = ctypes.CDLL(None, use_errno=True)
libc.ptrace.argtypes = [ctypes.c_long, ctypes.c_long, ctypes.c_void_p, ctypes.c_void_p]
libc.ptrace.restype = ctypes.c_long

# How a run ended: its status (128 and the signal's number if one ended it), what it wrote, how many allocations it asked for, and
# whether one was refused.
Run = collections.namedtuple("Run", "status output errors calls refused")


def ptrace(request, pid, data=None):
    if libc.ptrace(request, pid, None, data) < 0:
        raise OSError(ctypes.get_errno(), f"ptrace {request}")


def symbols(data):
    """Returns the symbols of a program, each with its name, where it begins and its size, as its file has them."""
    sections, size, count = struct.unpack_from("<Q", data, 40)[0], *struct.unpack_from("<HH", data, 58)
    headers = [struct.unpack_from("<IIQQQQIIQQ", data, sections + i * size) for i in range(count)]
    for _, kind, _, _, at, length, link, *_ in headers:
        if kind == 2:
            names = headers[link][4]
            for symbol in range(at, at + length, 24):
                name, _, _, _, value, extent = struct.unpack_from("<IBBHQQ", data, symbol)
                yield data[names + name : data.index(b"\0", names + name)], value, extent


def places(program):
    """Returns the program's entry, and the addresses of the functions that allocate, as its file has them."""
    with open(program, "rb") as file:
        data = file.read()
    found = [value for name, value, _ in symbols(data) if name in (b"rattle_alloc", b"rattle_realloc")]
    if not found:
        raise SystemExit(f"{program}: no symbol rattle_alloc")
    return struct.unpack_from("<Q", data, 24)[0], found


def starts(pid, entry, offsets):
    """Returns where the functions begin in a process, of which the program has them at these offsets."""
    with open(f"/proc/{pid}/auxv", "rb") as file:
        pairs = {kind: value for kind, value in struct.iter_unpack("<QQ", file.read())}
    return {offset + pairs[ENTRY] - entry for offset in offsets}


def go_on(tid, registers, memory, refuses):
    """Has a thread go on that is about to allocate, or refuses what it asks for."""
    if refuses:
        registers[RIP] = struct.unpack("<Q", os.pread(memory, 8, registers[RSP]))[0]
        registers[RSP] += 8
        registers[RAX], registers[RDX] = 0, 4096
    else:
        registers[RIP] += len(NOTHING) - 1
    ptrace(SET_REGISTERS, tid, ctypes.byref(registers))


class Traced:
    """A program that stops at its allocations."""

    def __init__(self, program, words, given, environment=None):
        self.entry, self.offsets = places(program)
        self.files = [os.memfd_create(name) for name in ("input", "output", "errors")]
        os.pwrite(self.files[0], given, 0)
        self.calls = 0
        self.refused = False
        self.pid = os.fork()
        if self.pid == 0:
            try:
                for to, file in enumerate(self.files):
                    os.dup2(file, to)
                os.lseek(0, 0, os.SEEK_SET)
                ptrace(TRACEME, 0)
                os.execv(program, [program, *words])
            finally:
                os._exit(99)
        os.waitpid(self.pid, 0)
        ptrace(SET_OPTIONS, self.pid, KILL_AT_END | TRACE_THREADS)
        self.memory = os.open(f"/proc/{self.pid}/mem", os.O_RDWR)
        self.stops = starts(self.pid, self.entry, self.offsets)
        for stop in self.stops:
            if os.pread(self.memory, 4, stop) != NOTHING:
                raise SystemExit(f"{program}: rattle_alloc does not begin with endbr64")
            os.pwrite(self.memory, STOP, stop)

    def allocates(self, tid, registers, first, others):
        """Lets a thread go on that is about to allocate, or refuses what it asks for."""
        self.calls += 1
        refuses = self.calls == first or (others and self.calls > first)
        self.refused = self.refused or refuses
        go_on(tid, registers, self.memory, refuses)
        if self.refused and not others:
            for stop in self.stops:
                os.pwrite(self.memory, NOTHING[:1], stop)

    def stopped(self, tid, status, first, others):
        """Lets a thread go on that stopped."""
        given = os.WSTOPSIG(status)
        if given == signal.SIGTRAP and not status >> 16:
            registers = (ctypes.c_ulonglong * REGISTERS)()
            ptrace(GET_REGISTERS, tid, ctypes.byref(registers))
            if registers[RIP] - 1 in self.stops:
                self.allocates(tid, registers, first, others)
            given = 0
        elif given in (signal.SIGTRAP, signal.SIGSTOP):
            given = 0
        ptrace(CONT, tid, given)

    def run(self, first, others):
        """Runs it to its end, refuses the allocation `first`, and all others after it if it is told so."""
        ending = threading.Timer(PATIENCE, os.kill, (self.pid, signal.SIGKILL))
        ending.start()
        ptrace(CONT, self.pid)
        while True:
            tid, status = os.waitpid(-1, ALL_THREADS)
            if os.WIFSTOPPED(status):
                try:
                    self.stopped(tid, status, first, others)
                except ProcessLookupError:
                    pass
            elif tid == self.pid:
                break
        ending.cancel()
        code = os.WEXITSTATUS(status) if os.WIFEXITED(status) else 128 + os.WTERMSIG(status)
        written = [os.pread(file, 1 << 24, 0) for file in self.files[1:]]
        for file in (self.memory, *self.files):
            os.close(file)
        return Run(code, written[0], written[1], self.calls, self.refused)


# --- A process that runs


class Running:
    """A process that runs, of which allocations are refused at times. `calls` and `refused` count since that began last."""

    def __init__(self, pid):
        self.pid = pid
        self.memory = os.open(f"/proc/{pid}/mem", os.O_RDWR)
        self.stops = starts(pid, *places(f"/proc/{pid}/exe"))
        self.lock = threading.Lock()
        self.only, self.thread, self.calls, self.refused = None, None, 0, 0
        self.stopping = False
        for stop in self.stops:
            if os.pread(self.memory, 4, stop) != NOTHING:
                raise SystemExit("rattle_alloc does not begin with endbr64")
        known: set[str] = set()
        while left := set(os.listdir(f"/proc/{pid}/task")) - known:
            for tid in left:
                self.seize(int(tid))
            known |= left

    def seize(self, tid):
        """Takes a thread, unless it has ended, or was taken as one that another thread started."""
        try:
            ptrace(SEIZE, tid, TRACE_THREADS)
        except OSError:
            pass

    def stop_at_all(self, stopping):
        """Has the process stop at its allocations, or no longer."""
        self.stopping = stopping
        for stop in self.stops:
            os.pwrite(self.memory, STOP if stopping else NOTHING[:1], stop)

    def obey(self, line):
        """Does what a line says, and returns what answers it."""
        word, *more = line.split()
        with self.lock:
            if word == "refuse":
                self.only, self.thread = (int(more[-1]) if len(more) == length else None for length in (1, 2))
                self.calls, self.refused = 0, 0
            self.stop_at_all(word == "refuse")
            return self.counts()

    def counts(self):
        return f"{self.refused} of {self.calls}"

    def refuses(self, tid):
        """Counts an allocation of a thread, and returns whether it is refused."""
        with self.lock:
            if not self.stopping or self.thread not in (None, tid):
                return False
            self.calls += 1
            refuses = self.only in (None, self.calls)
            self.refused += refuses
            if self.only == self.calls:
                self.stop_at_all(False)
            return refuses

    def stopped(self, tid, status):
        """Lets a thread go on that stopped."""
        given = os.WSTOPSIG(status)
        if given == signal.SIGTRAP and not status >> 16:
            registers = (ctypes.c_ulonglong * REGISTERS)()
            ptrace(GET_REGISTERS, tid, ctypes.byref(registers))
            if registers[RIP] - 1 in self.stops:
                go_on(tid, registers, self.memory, self.refuses(tid))
            given = 0
        ptrace(CONT, tid, 0 if status >> 16 else given)

    def watch(self):
        """Lets its threads go on whenever they stop, until it ends."""
        while True:
            try:
                tid, status = os.waitpid(-1, ALL_THREADS)
            except ChildProcessError:
                return
            if os.WIFSTOPPED(status):
                try:
                    self.stopped(tid, status)
                except ProcessLookupError:
                    pass
            elif tid == self.pid:
                return


def listen(running):
    """Obeys the lines of standard input to their end, and ends then."""
    for line in sys.stdin:
        print(running.obey(line), flush=True)
    running.obey("allow")
    os._exit(0)


def watch_running(pid):
    """Refuses what a process asks for as standard input says, and prints at its end how much was refused of how much."""
    running = Running(pid)
    print(running.counts(), flush=True)
    threading.Thread(target=listen, args=(running,), daemon=True).start()
    running.watch()
    print(running.counts(), flush=True)
    return 0


# --- A far side

NODES = ("serve", "join", "rejoin")
# What the far side of each does: that of `join` teaches two rows, for `rejoin` over a second connection, once it has refused the first
# one's hello; that of `serve` asks for its two rows.
TEACHES = (b"200\n".hex() + " ~2 0A820A01027431020404F0C40D0A850D000000010000753000000007050A860A0000753000000008F000"
           "0001 ~10 end")
PLAYS = {
    "join": ["~21 " + TEACHES],
    "rejoin": ["~21 " + b"502\n".hex() + " end", "~21 " + TEACHES],
    "serve": [b"HAProxyS 2.1\nb\na 1 1\n".hex() + "0000 ~46 0A84050100000002 ~2 0003 end"],
}


def accepts(listener, kind):
    """Plays the far side of `join` or `rejoin`."""
    for words in PLAYS[kind]:
        try:
            peer, _ = listener.accept()
        except OSError:
            return
        played(peer, words, PATIENCE)


def connects(port, is_over):
    """Plays the far side of `serve`."""
    while not is_over.is_set():
        try:
            peer = socket.create_connection(("127.0.0.1", port))
        except OSError:
            time.sleep(0.002)
            continue
        played(peer, PLAYS["serve"][0], PATIENCE)
        return


def bind_apart(listener, first):
    """Binds the listener to a port for the run `first`. No two runs share one, and the kernel gives none of them to a client: so nobody but
    the run's far side connects there, and the far side to nobody else."""
    for port in range(20_000 + first, 32_000, 2_000):
        try:
            listener.bind(("127.0.0.1", port))
            return port
        except OSError:
            continue
    raise SystemExit(f"no port is free for run {first}")


def meets(kind, program, given, first, others):
    """Runs a node that meets the far side."""
    with socket.socket() as listener:
        listener.setsockopt(socket.SOL_SOCKET, socket.SO_REUSEADDR, 1)
        port = bind_apart(listener, first)
        is_over = threading.Event()
        joins = kind != "serve"
        if joins:
            listener.listen()
            far = threading.Thread(target=accepts, args=(listener, kind))
        else:
            listener.close()
            far = threading.Thread(target=connects, args=(port, is_over))
        traced = Traced(program, node_words("join" if joins else "serve", port, 100), given)
        far.start()
        run = traced.run(first, others)
        is_over.set()
        if joins:
            listener.shutdown(socket.SHUT_RDWR)
        far.join()
        return run


# --- Runs, and what is to be said of them


def run_of(task):
    kind, program, words, given, first, others = task
    try:
        if kind in NODES:
            return meets(kind, program, given, first, others)
        return Traced(program, words, given).run(first, others)
    except (OSError, SystemExit) as error:
        return str(error)


def runs_of(kind, program, words, given, others):
    """Returns the run with all its memory, and one run for each of its allocations."""
    whole = run_of((kind, program, words, given, 0, False))
    if isinstance(whole, str):
        raise SystemExit(whole)
    tasks = [(kind, program, words, given, first, others) for first in range(1, whole.calls + 1)]
    with multiprocessing.Pool() as pool:
        runs = pool.map(run_of, tasks, chunksize=8)
    for run in runs:
        if isinstance(run, str):
            raise SystemExit(run)
    return whole, runs


def wrong(what, first, run):
    return f"{what}: allocation {first} refused: status {run.status}, {run.output[-300:]!r}, {run.errors[-300:]!r}"


def tells_program(what, whole, runs, others):
    """Returns what is wrong with the runs of the program, and a line about them."""
    ended: collections.Counter[str] = collections.Counter()
    for first, run in enumerate(runs, 1):
        if run[:3] == whole[:3]:
            ended["whole"] += 1
        elif run[:3] == (3, b"", b"memory\n"):
            ended["out of memory"] += 1
        elif run[:3] == (4, b"", b"device\n"):
            ended["without a device"] += 1
        else:
            return [wrong(what, first, run)], ""
    said = ", ".join(f"{count} {how}" for how, count in sorted(ended.items()))
    missing = [] if ended["out of memory"] else [f"{what}: memory never ran out"]
    return missing, f"{what}: each of {len(runs)} allocations refused{others}: {said}"


def tells_test(what, whole, runs, others):
    """The same of a test, which says for which calls memory ran out."""
    met: collections.Counter[str] = collections.Counter()
    for first, run in enumerate([whole, *runs]):
        if run.status != 0:
            return [wrong(what, first, run)], ""
        for line in run.output.decode().splitlines():
            if line.startswith("memory ran out: "):
                met[line[16:]] += 1
    lines = [f"{what}: each of {len(runs)} allocations refused{others}"]
    return [], "\n".join(lines + [f"memory ran out for {call}: {count}" for call, count in sorted(met.items())])


def main(words):
    others = words[:1] == ["--all"]
    kind, program, *words = words[others:]
    if kind == "running":
        return watch_running(int(program))
    program = os.path.abspath(program)
    given = b""
    if kind in NODES:
        with open(words[0], "rb") as file:
            given = file.read()
    elif kind == "program" and select.select([0], [], [], 0)[0]:
        given = sys.stdin.buffer.read()
    complaints, said = [], []
    for what in words if kind == "tests" else [kind if kind in NODES else " ".join(words)]:
        whole, runs = runs_of(kind, program, [what] if kind == "tests" else words, given, others)
        tells = tells_test if kind == "tests" else tells_program
        wrongs, line = tells(what, whole, runs, ", with all after it" if others else "")
        complaints += wrongs
        said += [line] if line else []
    print(*said, *complaints, sep="\n")
    return 1 if complaints else 0


if __name__ == "__main__":
    sys.exit(main(sys.argv[1:]))
