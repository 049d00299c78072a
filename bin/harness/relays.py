"""Relays: each passes connections on from a port to another, and can cut them all."""

import contextlib
import socket
import struct
import threading

AT_ONCE = 1 << 16


def reset(peer):
    """Ends a connection by a reset, also while another thread reads it."""
    with contextlib.suppress(OSError):
        peer.setsockopt(socket.SOL_SOCKET, socket.SO_LINGER, struct.pack('ii', 1, 0))
        peer.shutdown(socket.SHUT_RD)


class Relay:
    """Passes connections on from its own port to another one of this host, until it is cut; new ones are passed on then."""

    def __init__(self, ports, to):
        self.to = to
        self.port = ports.next()
        self.pairs = []
        self.cuts = 0
        self.listener = socket.create_server(('127.0.0.1', self.port), backlog=64)
        threading.Thread(target=self.accept, daemon=True).start()

    def accept(self):
        while True:
            try:
                near, _ = self.listener.accept()
            except OSError:
                return
            try:
                far = socket.create_connection(('127.0.0.1', self.to), timeout=2)
            except OSError:
                reset(near)
                near.close()
                continue
            far.settimeout(None)
            for peer in (near, far):
                peer.setsockopt(socket.IPPROTO_TCP, socket.TCP_NODELAY, 1)
            self.pairs = [pair for pair in self.pairs if pair[0].fileno() >= 0] + [(near, far)]
            threads = [threading.Thread(target=self.carry, args=pair, daemon=True) for pair in ((near, far), (far, near))]
            threading.Thread(target=self.finish, args=(near, far, threads), daemon=True).start()

    @staticmethod
    def carry(source, target):
        """Carries bytes one way. The end of one way ends both."""
        with contextlib.suppress(OSError):
            while data := source.recv(AT_ONCE):
                target.sendall(data)
        for peer in (source, target):
            with contextlib.suppress(OSError):
                peer.shutdown(socket.SHUT_RDWR)

    @staticmethod
    def finish(near, far, threads):
        for thread in threads:
            thread.start()
        for thread in threads:
            thread.join()
        near.close()
        far.close()

    def cut(self):
        """Resets all connections that it carries."""
        self.cuts += 1
        for pair in list(self.pairs):
            for peer in pair:
                reset(peer)

    def close(self):
        with contextlib.suppress(OSError):
            self.listener.shutdown(socket.SHUT_RDWR)
        self.listener.close()
        self.cut()
