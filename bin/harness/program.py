"""Runs of the program, and what each of them has to keep to, whatever it reads."""

import os
import re
import subprocess
from collections import namedtuple

TOP = os.path.dirname(os.path.dirname(os.path.dirname(os.path.abspath(__file__))))

FAULTS = ('BadInteger', 'SizeLimit', 'BadDefinition', 'UnknownDataType', 'NoTable', 'BadKey', 'BadValue', 'Trailing', 'NoNumber',
          'EmptySlot')
FAULT_LINE = re.compile(b'fault (%s)\n' % '|'.join(FAULTS).encode())
REFUSED_LINE = re.compile(rb'(?:scene|line ([1-9][0-9]*)): refused\n')

Ending = namedtuple('Ending', 'status output errors')


def path_of_program():
    """Returns the path of the program to try: the one that PEERS_NODE names, or else the built one. Ends the command if it isn't there."""
    path = os.path.realpath(os.environ.get('PEERS_NODE') or os.path.join(TOP, 'crates/peers_node/out/peers_node'))
    if not os.access(path, os.X_OK):
        raise SystemExit('there is no program at ' + path)
    return path


def node_words(kind, port, turns):
    """Returns the words of `serve` as `b`, whose peer is `a`, or of `join` the other way round."""
    name, peer = ('b', 'a') if kind == 'serve' else ('a', 'b')
    return [kind, '--turns', str(turns), '--port', str(port), '--name', name, '--peer', peer]


def processor_seconds(pid):
    """Returns the processor time of a process, in seconds."""
    with open('/proc/%d/stat' % pid) as file:
        words = file.read().rsplit(')', 1)[1].split()
    return (int(words[11]) + int(words[12])) / os.sysconf('SC_CLK_TCK')


class Complaint(Exception):
    """Something that the program must not do. `what` is its kind, by which two complaints are the same."""

    def __init__(self, what, text):
        super().__init__(what, text)
        self.what = what
        self.text = text

    def __str__(self):
        return '%s: %s' % (self.what, self.text)


def require(holds, what, text, *shown):
    """Complains unless something holds."""
    if not holds:
        raise Complaint(what, ' '.join([text] + [short(part) for part in shown]))


def text(lines):
    return b''.join(line + b'\n' for line in lines)


def short(part):
    """Returns a part of a complaint's text, cut to a length that can be read."""
    text = part.decode('latin-1') if isinstance(part, bytes) else str(part)
    return repr(text) if len(text) <= 400 else repr(text[:250]) + ' .. ' + repr(text[-100:])


def differing(one, other):
    """Returns the first lines in which two texts differ, to be shown."""
    ones, others = one.split(b'\n'), other.split(b'\n')
    for at in range(max(len(ones), len(others))):
        pair = [lines[at] if at < len(lines) else b'(the end)' for lines in (ones, others)]
        if pair[0] != pair[1]:
            return 'line %d: %s and %s' % (at + 1, short(pair[0]), short(pair[1]))
    return 'nothing'


class Program:
    """The built program, how long it may take to end, and how many messages it was given to decode."""

    def __init__(self, path, patience):
        self.path = path
        self.patience = patience
        self.decoded = 0
        self.sessions = 0
        self.latest = (), b''

    def note(self, words, text):
        """Notes what the latest run is given, to be kept if it fails."""
        self.latest = words, text

    def start(self, *words):
        return subprocess.Popen([self.path, *words], stdin=subprocess.PIPE, stdout=subprocess.PIPE, stderr=subprocess.PIPE)

    def run(self, *words, text=b''):
        """Returns how a run of the program ended."""
        self.note(words, text)
        return self.finished(self.start(*words), words, text)

    def finished(self, child, words, text=b''):
        """Returns how a child ended, in time after its input was closed."""
        try:
            output, errors = child.communicate(text, timeout=self.patience)
        except subprocess.TimeoutExpired:
            child.kill()
            child.communicate()
            raise Complaint('slow', '%s has not ended after %g s' % (' '.join(words), self.patience)) from None
        require(child.returncode >= 0, 'signal', ' '.join(words), -child.returncode)
        return Ending(child.returncode, output, errors)

    def read(self, subcommand, text):
        """Runs a subcommand that reads a scene or a script; its status and its lines on standard error are documented ones."""
        ending = self.run(subcommand, text=text)
        require(ending.status in (0, 1), 'status', subcommand, ending)
        require(ending.output[-1:] in (b'', b'\n'), 'half a line', subcommand, ending.output)
        if ending.status == 0:
            require(not ending.errors, 'standard error', subcommand, ending.errors)
        elif FAULT_LINE.fullmatch(ending.errors):
            require(subcommand == 'learn', 'a fault', 'of a subcommand that has none', subcommand, ending.errors)
        elif ending.errors or subcommand != 'check':
            require(REFUSED_LINE.fullmatch(ending.errors), 'standard error', subcommand, ending.errors)
            require(not ending.output, 'output of what was refused', subcommand, ending.output)
        return ending


def refused_line(ending):
    """Returns the number of the line that a run refused, 0 for a scene that lacks something, or None."""
    match = REFUSED_LINE.fullmatch(ending.errors)
    return match and int(match[1] or 0)


def fault_of(ending):
    """Returns the fault that a run named, or None."""
    match = FAULT_LINE.fullmatch(ending.errors)
    return match and match[1].decode()
