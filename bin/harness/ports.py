"""Ports of 127.0.0.1 that nobody else takes: they are outside the range from which the kernel gives ports to clients, and each process
that asks for some has a block of its own, of which it holds the first port for as long as it runs."""

import itertools
import socket
import threading

FIRST, LAST, BLOCK = 10_000, 19_600, 400


def held(port, address='127.0.0.1'):
    """Returns a socket that has the port, or None if there is none to be had."""
    made = socket.socket(socket.AF_INET6 if ':' in address else socket.AF_INET)
    try:
        made.bind((address, port))
        return made
    except OSError:
        made.close()
        return None


class Ports:
    """A block of ports, given one by one."""

    def __init__(self):
        for first in range(FIRST, LAST, BLOCK):
            self.guard = held(first)
            if self.guard is not None:
                self.left = itertools.cycle(range(first + 1, first + BLOCK))
                self.lock = threading.Lock()
                return
        raise SystemExit('no block of ports is free')

    def next(self):
        """Returns a port at which nobody listens."""
        with self.lock:
            for port in itertools.islice(self.left, BLOCK):
                made = held(port)
                if made is not None:
                    made.close()
                    return port
        raise SystemExit('no port is free')
