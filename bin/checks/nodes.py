#!/usr/bin/env python3
"""Checks the subcommands that meet another node, and what they do with far sides that are no nodes:

  nodes.py two-nodes | several-sessions | far-sides | memory

It tries the built program, or the one that PEERS_NODE names. For each check it prints a line `passed WHAT` or `FAILED WHAT: WHY`, and a line
`said TEXT` for what is to be known besides; the status is 0 only if none failed."""

import contextlib
import os
import re
import socket
import subprocess
import sys

sys.dont_write_bytecode = True
sys.path[0] = os.path.dirname(os.path.dirname(os.path.abspath(__file__)))

from harness import checking  # noqa: E402, since the path has to be set first
from harness.checking import check, main, program  # noqa: E402
from harness.far import Player, kept_open, played  # noqa: E402
from harness.node import listening  # noqa: E402
from harness.ports import Ports  # noqa: E402
from harness.program import Ending, node_words  # noqa: E402
from harness.trial import PATIENCE, Wrong, wait  # noqa: E402
from harness.wire import acknowledgement, hello  # noqa: E402

TURNS = re.compile('turns [1-9][0-9]*\n')
TABLE = 'table 1 t1 integer 4 30000 gpc0\n'
TWO_ROWS = 'row 1 4294997296 7 5\nrow 1 4294997296 8 240\n'
BOTH = 'turns\nrow 1 END 7 5\nrow 1 END 8 240\n'
HELLO, OLDER = (hello('b', 'a', version).hex().upper() for version in (b'HAProxyS 2.1', b'HAProxyS 2.0'))
ACCEPTED, ACK = b'200\n'.hex().upper(), acknowledgement(1, 2).hex().upper()
# The updates of LESSON have a life of 30,000 ms, those of OLDER_LESSON have none, and of MIXED the first one has 1,000 ms and the second none.
LESSON = '0A820A01027431020404F0C40D0A850D000000010000753000000007050A860A0000753000000008F000'
OLDER_LESSON = '0A820A01027431020404F0C40D0A80090000000100000007050A810600000008F000'
MIXED = '0A820A01027431020404F0C40D0A850D00000001000003E800000007050A810600000008F000'

ports = Ports()


def example(name):
    """Returns a file of the examples, as text."""
    return checking.example(name).decode()


def tables_of(scene):
    return ''.join(line for line in scene.splitlines(keepends=True) if line.startswith('table '))


def hexed(text):
    """Returns the bytes of a text in hexadecimal."""
    return text.encode('latin-1').hex().upper()


def without_moments(text):
    """Takes the ends of rows and the starts of rates out of them, since these depend on the number of turns."""
    return re.sub(' [0-9]+/', ' START/', re.sub('^(row [0-9]+) [0-9]+ ', r'\1 END ', text, flags=re.M))


class Started:
    """A node that was started at a port. It reads its scene once that is given."""

    def __init__(self, kind, port, turns, scene=None, more=(), within=()):
        words = [*within, program, *node_words(kind, port, turns), *more]
        self.child = subprocess.Popen(words, stdin=subprocess.PIPE, stdout=subprocess.PIPE, stderr=subprocess.PIPE)
        if scene is not None:
            self.give(scene)

    def give(self, scene):
        try:
            with self.child.stdin as given:
                given.write(scene.encode())
        except BrokenPipeError:
            pass
        self.child.stdin = None

    def ended(self):
        """Returns how it ended, at the latest 60 s from now."""
        try:
            output, errors = self.child.communicate(timeout=60)
        except subprocess.TimeoutExpired:
            self.child.kill()
            output, errors = self.child.communicate()
        return Ending(self.child.returncode, output.decode('latin-1'), errors.decode('latin-1'))


def awaits(port):
    """Waits until somebody listens at a port. Only that nobody does is a check."""
    try:
        wait(lambda: listening(port), PATIENCE, 'somebody listens at port %d' % port)
    except Wrong as wrong:
        check(str(wrong), False)


def serving(scene, turns=100, more=(), within=()):
    """Returns a node that serves a scene and listens, and its port."""
    port = ports.next()
    node = Started('serve', port, turns, scene, more, within)
    awaits(port)
    return node, port


def answer_to(port, data):
    """Sends bytes over a connection, and returns all that comes back until it is closed, and why it failed if it did."""
    try:
        peer = kept_open(('127.0.0.1', port))
    except OSError as error:
        return repr(error).encode()
    came, _, failed = played(peer, data.hex()).partition(' ')
    return bytes.fromhex(came) + failed.encode()


# --- Two nodes

def kept(kind, ending):
    """Checks that a node ended well, and returns the rows that it printed after its turns."""
    turns = TURNS.match(ending.output)
    check('%s ends well' % kind, ending.status == 0 and not ending.errors and turns, ending)
    return ending.output[turns.end():] if turns else ''


def same_rows(what, served, rows):
    """`serve` has just these rows, and `join` the same; theirs end and began as many milliseconds later as it made turns, whichever starts
    first. `join` gets its scene once `serve` listens."""
    for order in ('serve', 'join'), ('join', 'serve'):
        port = ports.next()
        nodes = {kind: Started(kind, port, 1000, served if kind == 'serve' else None) for kind in order}
        awaits(port)
        nodes['join'].give(tables_of(served))
        serve, join = [kept(kind, nodes[kind].ended()) for kind in ('serve', 'join')]
        check('serve: the rows of ' + what, serve == rows, serve, rows)
        check('join: the rows of ' + what, without_moments(join) == without_moments(rows), join, rows)


def strangers():
    """Bytes that no node sends: the answer, the status, the line, and the rows, which stay."""
    bad, no_table, good = 'fault NoTable\n', '\x0A\x83\x01\x09', 'HAProxyS 2.1\nb\na 1 1\n'
    for what, text, came, status, errors in (
            ('another version', 'HAProxyS 2.2\nb\na 1 1\n', '502\n', 0, ''), ('another remote name', 'HAProxyS 2.1\nc\na 1 1\n', '503\n', 0, ''),
            ('a stranger', 'HAProxyS 2.1\nb\nc 1 1\n', '504\n', 0, ''), ('another protocol', 'GET / HTTP/1.1\n\n\n', '501\n', 0, ''),
            ('a switch to no table, in version 2.0', 'HAProxyS 2.0\nb\na 1 1\n' + no_table, '200\n\1\0', 1, bad),
            ('a switch to no table', good + no_table, '200\n\1\0', 1, bad),
            ('a message that is too large', good + '\x0A\x82\xF1\xF1\x06', '200\n\1\1', 1, 'fault SizeLimit\n'),
            ('an error message', good + '\1\0', '200\n', 0, '')):
        node, port = serving(example('two-updates.scene'))
        answer, ending = answer_to(port, text.encode('latin-1')), node.ended()
        found = answer.decode('latin-1'), ending.status, ending.errors, TURNS.sub('', ending.output, 1)
        check(what, found == (came, status, errors, TWO_ROWS), answer, ending)


def ends(what, words, text, status, errors):
    """Checks how a run ends that meets nobody, and prints nothing on standard output."""
    checking.ends(what, checking.run(*words, text=text.encode()), status, b'', errors.encode())


def alone():
    """A node that meets nobody, or has nothing to say."""
    scene, port = example('two-updates.scene'), ports.next()
    ends('join: nobody listens', node_words('join', port, 5), scene, 4, 'device\n')
    ends('join: options in another order', ['join', '--peer=-', '--name=--x', '--port=%d' % port, '--turns=5', '--'], scene, 4, 'device\n')
    node, port = serving(scene, 5)
    ends('serve: the port is taken', node_words('serve', port, 5), scene, 4, 'device\n')
    node.child.kill()
    node.ended()
    ends('serve: no table', node_words('serve', port, 5), '', 1, 'scene: refused\n')
    for kind in 'serve', 'join':
        ends(kind + ': a table of id 0', node_words(kind, port, 5), 'table 0 t1 integer 4 30000 gpc0\n', 1, 'line 1: refused\n')


def two_nodes():
    same_rows('two-updates', example('two-updates.scene'), TWO_ROWS)
    same_rows('all-kinds', example('nodes/all-kinds.scene'), example('nodes/all-kinds.rows'))
    # More rows than a block of a seat's receipts holds, and than a lesson.
    many = 'table 1 t1 integer 4 0 gpc0\n' + ''.join('update 1 1 0 %d 5\n' % key for key in range(2000))
    same_rows('many updates', many, ''.join('row 1 - %d 5\n' % key for key in range(2000)))
    strangers()
    alone()


# --- Far sides that are no nodes

def met(kind, words, turns=100, scene=None, within=()):
    """Has a far side follow words against a node. Returns what came over the connection, and how the node ended, which may be before it
    meets the far side."""
    scene = example('two-updates.scene') if scene is None else scene
    if kind == 'serve':
        port = ports.next()
        far, node = Player(words, port), Started('serve', port, turns, scene, (), within)
    else:
        far = Player(words)
        node = Started('join', far.port, turns, scene, (), within)
    ending = node.ended()
    far.gives_up.set()
    if kind == 'join' and not far.came and far.is_alive():
        for _ in far.parts:  # If the node never came, the far side waits for somebody.
            try:
                kept_open(('127.0.0.1', far.port)).close()
            except OSError:
                break
    return far.result(), ending


def far(kind, what, words, came, status, errors, output, turns=None, scene=None):
    """Checks what a node answers to words, and how it ends: its output without moments, which depend on the number of turns, unless this
    number is given; then it is compared as it is."""
    found, ending = met(kind, words, turns or 100, scene)
    shown = ending.output if turns else without_moments(TURNS.sub('turns\n', ending.output, 1))
    check('%s: %s' % (kind, what), (found, ending.status, ending.errors, shown) == (came.replace(' ', ''), status, errors, output), found, ending)


def answers():
    """What `join` gets in place of a status, and after one."""
    for code in (300, 501, 503, 504):
        far('join', 'status %d' % code, hexed('%d\n' % code), HELLO, 0, '', 'turns\n')
    for text in ('OK\n', '20\n', '2000\n', '0200\n', '200 \n', '502 \n', '0502\n', ' 200\n', '-200\n', '\n', 'HAProxyS 2.1\na\nb 1 1\n',
                 'HTTP/1.1 200 OK\r\n\r\n'):
        far('join', 'no status: %r' % text, hexed(text), HELLO, 0, '', 'turns\n')
    far('join', 'a status line that is too long', '3' * 1026, HELLO, 0, '', 'turns\n')
    far('join', 'a message before the status', '0004' + ACCEPTED, HELLO, 0, '', 'turns\n')
    for text in ('', '2', '20', '200', '200\r', '502', '502\r'):
        far('join', 'ends after %r' % text, hexed(text) + ' end', HELLO, 0, '', 'turns\n')
    far('join', 'leaves before its status', '<21 leave', HELLO, 0, '', 'turns\n')
    far('join', 'resets before its status', '<21 reset', HELLO, 4, 'device\n', '')
    far('join', 'a status in pieces', '32 pause 30 pause 300D pause 0A0A8301 pause 09', HELLO + '00000100', 1, 'fault NoTable\n', 'turns\n')
    far('join', 'resets after its status', ACCEPTED + ' <23 reset', HELLO + '0000', 4, 'device\n', '')


def falls_back():
    """A far side that answers the hello of `join` with 502. If turns are left, `join` connects once more, says version 2.0, and its turns go
    on: the rows of the lesson end 30 s after the moment of the turn that learned them. A lesson has lives or none."""
    bad, two, ended = hexed('502\n'), f'{HELLO}/{OLDER}', 'turns 4\nrow 1 4294997300 7 5\nrow 1 4294997300 8 240\n'
    done = f'{two} 0000 0003 {ACK}'
    for what, words, came, status, errors, output, turns in (
            ('2.1 is refused, and 2.0 is welcome', f'{bad} again {ACCEPTED}{OLDER_LESSON}0001', done, 0, '', ended, 100),
            ('2.0 is welcome, and taught with lives', f'{bad} again {ACCEPTED}{LESSON}0002', done, 0, '', BOTH, None),
            ('2.0 is welcome, and taught with a life and none', f'{bad} again {ACCEPTED}{MIXED}0001', done, 0, '',
             'turns 4\nrow 1 4294968300 7 5\nrow 1 4294997300 8 240\n', 100),
            ('a request in version 2.0', f'{bad} again {ACCEPTED}0000 <25 {OLDER_LESSON}0001', f'{two} 0000 0002 0003 {ACK}', 0, '', BOTH, None),
            ('a request in a lesson in version 2.0', f'{bad} again {ACCEPTED}{OLDER_LESSON[:50]}0000{OLDER_LESSON[50:]} end',
             f'{two} 0000 {ACK} {OLDER_LESSON}', 0, '', BOTH, None),
            ('2.1 is refused in pieces', f'35 pause 30 pause 320D pause 0AFF again {ACCEPTED}{OLDER_LESSON}0001', done, 0, '', BOTH, None),
            ('a fault in version 2.0', f'{bad} again {ACCEPTED}0A830109', f'{two} 0000 0100', 1, 'fault NoTable\n', 'turns\n', None),
            ('resets in version 2.0', f'{bad} again {ACCEPTED} <23 reset', f'{two} 0000', 4, 'device\n', '', None),
            ('both versions are refused', f'{bad} again {bad}', two, 0, '', 'turns 4\n', 100),
            ('the name is refused in version 2.0', f'{bad} again {hexed("503" + chr(10))}', two, 0, '', 'turns 4\n', 100),
            ('leaves in version 2.0', f'{bad} again <21 leave', two, 0, '', 'turns 4\n', 100),
            ('no turn is left', bad, HELLO, 0, '', 'turns 2\n', 2), ('one turn is left', f'{bad} again', two, 0, '', 'turns 3\n', 3),
            ('two turns are left', f'{bad} again {ACCEPTED}{OLDER_LESSON}', f'{two} 0000 {ACK}', 0, '', ended, 4),
            ('nobody listens any more', bad, HELLO, 4, 'device\n', '', 100)):
        far('join', what, words, came, status, errors, output, turns)


def lessons():
    """What it gets once it was accepted, with a lesson of two updates, whose second one it acknowledges."""
    for what, words, came, status, errors, output in (
            ('a resync, finished', f'{ACCEPTED}{LESSON}0001', f'0000 0003 {ACK}', 0, '', BOTH),
            ('a resync, in part', f'{ACCEPTED}{LESSON}0002', f'0000 0003 {ACK}', 0, '', BOTH),
            ('resets after a lesson', f'{ACCEPTED}{LESSON} <31 reset', f'0000 {ACK}', 4, 'device\n', ''),
            ('leaves after a lesson', f'{ACCEPTED}{LESSON} <31 leave', f'0000 {ACK}', 0, '', BOTH),
            ('a lesson and the error message 0100', f'{ACCEPTED}{LESSON}0100', '0000', 0, '', BOTH),
            ('a lesson and the error message 0101', f'{ACCEPTED}{LESSON}0101', '0000', 0, '', BOTH),
            ('a lesson after an error message', f'{ACCEPTED}0100{LESSON}', '0000', 0, '', 'turns\n'),
            ('messages that ask for nothing', f'{ACCEPTED}000400030502474505800200FF{LESSON} end', f'0000 {ACK}', 0, '', BOTH),
            ('acknowledgements of nothing', f'{ACCEPTED}0A840501000000090A840501000000090A84050900000001{LESSON} end', f'0000 {ACK}', 0, '', BOTH),
            ('a request before a lesson', f'{ACCEPTED}0000 <25 {LESSON}0001', f'0000 0002 0003 {ACK}', 0, '', BOTH),
            ('a request in a lesson', f'{ACCEPTED}{LESSON[:58]}0000{LESSON[58:]} end', f'0000 {ACK} {LESSON.replace("7530", "752F")}', 0, '', BOTH),
            ('bytes of 255', ACCEPTED + 'F' * 200, '0000 0100', 1, 'fault BadInteger\n', 'turns\n')):
        far('join', what, words, HELLO + came, status, errors, output)
    for length in range(43):
        came = '0000' + ('' if length < 29 else ACK if length == 42 else '0A84050100000001')
        output = ''.join(BOTH.splitlines(keepends=True)[:1 + (length >= 29) + (length >= 42)])
        far('join', 'a lesson that ends after %d bytes' % length, f'{ACCEPTED}{LESSON[:2 * length]} end', HELLO + came, 0, '', output)


# What `serve` answers in place of a hello.
NO_HELLOS = {
    '501': ('haproxys 2.1\nb\na 1 1\n', 'HAProxyS\nb\na 1 1\n', 'HAProxyS 2.1\nb\na 1\n', 'HAProxyS 2.1\nb\na 1 x\n', 'HAProxyS 2.1\nb\n 1 1\n',
            'HAProxyS 2.1\nb\na 1 1 1\n', '\n\n\n', 'HAProxyS 2.1\nb\n%s 1 1\n' % ('a' * 256), 'H' * 513, '\0\0\n\n\n', 'HAProxyS 2.0\nb\na 1\n'),
    '502': ('HAProxyS 2.2\nb\na 1 1\n', 'HAProxyS 3.1\nb\na 1 1\n', 'HAProxyS  2.1\nb\na 1 1\n', 'HAProxyS 2.10\nc\nc 1 1\n', 'HAProxyS 2\nb\na 1 1\n',
            'HAProxyS 2.00\nb\na 1 1\n', 'HAProxyS 2.01\nb\na 1 1\n', 'HAProxyS 02.0\nb\na 1 1\n', 'HAProxyS 2.0 \nb\na 1 1\n'),
    '503': ('HAProxyS 2.1\n\na 1 1\n', 'HAProxyS 2.1\nbb\na 1 1\n', 'HAProxyS 2.1\n%s\nc 1 1\n' % ('b' * 512), 'HAProxyS 2.0\nc\nc 1 1\n'),
    '504': ('HAProxyS 2.1\nb\nb 1 1\n', 'HAProxyS 2.0\nb\nb 1 1\n'),
}


def hellos():
    """What `serve` gets in place of a hello."""
    for length in range(21):
        far('serve', 'a hello that ends after %d bytes' % length, HELLO[:2 * length] + ' end', '', 0, '', BOTH)
    far('serve', 'resets in its hello', HELLO[:20] + ' pause reset', '', 4, 'device\n', '')
    for status, texts in NO_HELLOS.items():
        for text in texts:
            far('serve', 'a hello that is answered %s: %r' % (status, text[:40]), hexed(text), hexed(status + '\n'), 0, '', BOTH)
    for what, words in (('with CR in version 2.0', hexed('HAProxyS 2.0\r\nb\r\na 1 1\r\n')), ('with CR', hexed('HAProxyS 2.1\r\nb\r\na 1 1\r\n')),
                        ('in pieces', f'{HELLO[:8]} pause {HELLO[8:28]} pause {HELLO[28:]}'), ('of version 2.0', OLDER),
                        ('of version 2.0 in pieces', f'{OLDER[:22]} pause {OLDER[22:24]} pause {OLDER[24:]}')):
        far('serve', 'a hello ' + what, words + '0100', ACCEPTED, 0, '', BOTH)


def requests():
    """What it gets once it accepted the far side and taught it its rows. It teaches them from the second turn on, and each turn is a
    millisecond after the one before."""
    taught, bad, lost = ACCEPTED + LESSON.replace('7530', '752E'), 'fault NoTable\n', 'device\n'
    again = '0A850D000000010000752B00000007050A860A0000752B00000008F000'
    for what, words, came, status, errors, output in (
            ('a resync', f'{HELLO}0000 <46 {ACK} <2 0003 end', f'{taught} 0001', 0, '', BOTH),
            ('a resync in version 2.0', f'{OLDER}0000 <38 {ACK} <2 0003 end', f'{ACCEPTED}{OLDER_LESSON} 0001', 0, '', BOTH),
            ('a request in a resync in version 2.0', f'{OLDER}0000 <38 0000 pause {ACK} <21 {ACK} <2 0003 end',
             f'{ACCEPTED}{OLDER_LESSON} 0A8009000000010000000705{OLDER_LESSON[-18:]} 0001', 0, '', BOTH),
            ('a resync that is read late', f'{HELLO}0000 pause pause <46 {ACK} <2 0003 end', f'{taught} 0001', 0, '', BOTH),
            ('leaves in a resync', f'{HELLO}0000 <46 leave', taught, 0, '', BOTH), ('resets in a resync', f'{HELLO}0000 <46 reset', taught, 4, lost, ''),
            ('reads nothing of a resync', f'{HELLO}0000 pause leave', '', 4, lost, ''),
            ('an acknowledgement ahead', f'{HELLO}0000 <46 0A84050100000003', f'{taught} 0100', 0, '', BOTH),
            ('an acknowledgement ahead after a resync', f'{HELLO}0000 <46 {ACK} <2 0A84050100000003 0003 end', f'{taught} 0001', 0, '', BOTH),
            ('acknowledgements of a stranger, of a part, and twice',
             f'{HELLO}0000 <46 0A840509000000090A840501000000010A84050100000001 pause {ACK} <2 {ACK}0003 end', f'{taught} 0001', 0, '', BOTH),
            ('a request in a resync', f'{HELLO}0000 <46 0000 pause {ACK} <29 {ACK} <2 0003 end', f'{taught} {again} 0001', 0, '', BOTH),
            ('a fault in a resync', f'{HELLO}0000 <46 0A830109', f'{taught} 0100', 1, bad, BOTH),
            ('an error message in a resync', f'{HELLO}0000 <46 0101', taught, 0, '', BOTH),
            ('bytes of 255', HELLO + 'F' * 200, ACCEPTED + '0100', 1, 'fault BadInteger\n', BOTH)):
        far('serve', what, words, came, status, errors, output)


def updates():
    """What `serve` learns, in a session of either version: a life that comes counts, and without one a row ends after the table's expire. It
    reads the hello and the updates in its first turn, 1 ms after the moment 2^32, and the end in its second. One turn teaches no row. A far
    side that asks for a resync of 4 MB, more than the connection buffers, and reads nothing until it leaves has a write of the node fail."""
    for said in HELLO, OLDER:
        far('serve', 'updates with a life and with none', f'{said}{MIXED} end', f'{ACCEPTED} 0A84050100000002', 0, '',
            'turns 2\nrow 1 4294968297 7 5\nrow 1 4294997297 8 240\n', 100)
    far('serve', 'one turn', HELLO + '0000', ACCEPTED, 0, '', 'turns 1\n' + TWO_ROWS, 1)
    far('serve', 'stops reading', f'narrow {HELLO}0000 <4{" pause" * 5} leave', ACCEPTED, 4, 'device\n', '', scene=long_keys(512))


def versions():
    """Two sessions of one node, each of the version of its hello. All their turns come at the moment at which the rows were loaded."""
    node, port = serving(example('two-updates.scene'), 1000, ('--sessions', '2'))
    words = f'{OLDER}0000 <38 {ACK} <2 0003 end again {HELLO}0000 <46 {ACK} <2 0003 end'
    came, ending = Player(words, port).result(), node.ended()
    wanted = f'{ACCEPTED}{OLDER_LESSON}0001/{ACCEPTED}{LESSON}0001', 0, '', 'audit ok\n' + TWO_ROWS
    check('serve: a session of each version', (came, ending.status, ending.errors, ending.output.partition('\n')[2]) == wanted, came, ending)


def faults():
    """Each stream of examples/faults.tsv, sent to both nodes: neither acknowledges what it learned before a fault in the same bytes."""
    scene, before, rows, acks = '', '', '', ''
    for line in example('faults.tsv').splitlines():
        fault, why, data, more, last = (line.split('\t') + [''] * 4)[:5]
        if not fault or fault[0] == '#':
            continue
        if fault == 'scene':
            scene = why.replace('\\n', '\n')
        elif fault == 'before':
            before, more, last = (text.removeprefix('-').replace('\\n', '\n') for text in (data, more, last))
            rows = 'turns\n' + without_moments(more)
            acks = ''.join('0A8405%02X%08X' % tuple(map(int, ack.split()[1:])) for ack in last.splitlines())
        else:
            came = {'none': acks, 'SizeLimit': '0101'}.get(fault, '0100')
            ends = (0, '') if fault == 'none' else (1, 'fault %s\n' % fault)
            stream = (before + data).replace(' ', '')
            far('join', '%s: %s' % (fault, why), f'{ACCEPTED}{stream} end', f'{HELLO} 0000 {came}', *ends, rows, scene=scene)
            far('serve', '%s: %s' % (fault, why), f'{HELLO}{stream} end', f'{ACCEPTED} {came}', *ends, rows, scene=scene)


def far_sides():
    """The far side's hello and that of `join` have the same bytes here: each has a peer of the other's name."""
    for part in answers, falls_back, lessons, hellos, requests, updates, versions, faults:
        part()


# --- Several sessions at once

def joining(port):
    return Started('join', port, 1000, TABLE)


def joined(what, node):
    """Checks that a node that joined ends well and has the rows that the server has."""
    ending = node.ended()
    is_right = TURNS.match(ending.output) and without_moments(TURNS.sub('', ending.output, 1)) == without_moments(TWO_ROWS)
    check('%s: who joins' % what, ending.status == 0 and not ending.errors and is_right, ending)


def served(what, node, status=0, errors='', audit='audit ok\n'):
    """Checks that the server ends so, and prints its turns, that the audit found nothing, and its rows."""
    ending = node.ended()
    is_right = TURNS.match(ending.output) and TURNS.sub('', ending.output, 1) == audit + TWO_ROWS
    check('%s: who serves' % what, (ending.status, ending.errors) == (status, errors) and is_right, ending)


def sessions(count, within=()):
    return serving(example('two-updates.scene'), 1000, ('--sessions', str(count)), within)


def reset(port):
    with contextlib.suppress(ConnectionRefusedError):  # That nobody listens is a check of its own.
        played(kept_open(('127.0.0.1', port)), 'reset')


def told(data, wanted):
    """Returns a far side that sends bytes, and checks what comes back."""
    def play(port):
        answer = answer_to(port, data)
        check('a session beside another', answer == wanted, answer, wanted)
    return play


def beside(what, status, errors, play):
    """Has a far side play one of two sessions; a node joins in the other. Either may come first."""
    for first in (True, False):
        node, port = sessions(2)
        if first:
            play(port)
        joined(what, joining(port))
        if not first:
            play(port)
        served(what, node, status, errors)


def few_threads():
    """Three sessions in less and less address space. If the second or third thread can't be started, the node waits until the sessions that
    run are over, and then prints nothing. The first one waits for its hello."""
    whole = threadless = 0
    for kilobytes in range(49152, 16383, -8192):
        what = 'three sessions in %d KB' % kilobytes
        node, port = sessions(3, ('prlimit', '--as=%d' % (kilobytes * 1024)))
        with contextlib.suppress(ConnectionRefusedError), kept_open(('127.0.0.1', port)):  # Its end says why nobody listens.
            for _ in range(2):
                answer_to(port, hello('c', 'a'))
            if node.child.poll() is not None:
                check(what + ': the node waits for the first one', False)
        ending = node.ended()
        whole += ending.status == 0
        threadless += ending.status == 4
        if ending.status and ending != (4, '', 'device\n'):
            check(what, False, ending)
    check('three sessions in less and less memory', whole and threadless, whole, 'whole,', threadless, 'without a thread')


def several_sessions():
    good, no_table, too_large = hello('b', 'a'), b'\x0A\x83\x01\x09', b'\x0A\x82\xF1\xF1\x06'
    node, port = sessions(2)
    for joiner in [joining(port), joining(port)]:
        joined('two joiners', joiner)
    served('two joiners', node)
    # One session waits for its hello while another one begins and ends.
    node, port = sessions(3)
    with socket.create_connection(('127.0.0.1', port)):
        for _ in range(2):
            joined('beside a silent connection', joining(port))
    served('beside a silent connection', node)
    beside('garbage', 1, 'fault NoTable\n', told(good + no_table, b'200\n\1\0'))
    beside('a refused hello', 0, '', told(hello('c', 'a'), b'503\n'))
    beside('a broken connection', 4, 'device\n', reset)
    # The first session that doesn't end well decides.
    node, port = sessions(3)
    told(good + too_large, b'200\n\1\1')(port)
    reset(port)
    told(good + no_table, b'200\n\1\0')(port)
    served('three that end badly', node, 1, 'fault SizeLimit\n')
    few_threads()
    # One session is as without the option.
    node, port = sessions(1)
    joined('one session', joining(port))
    served('one session', node, audit='')


# --- In less and less memory

def long_keys(count):
    """Returns updates of a table `t1` of string keys with 8,180 bytes each."""
    return 'table 1 t1 string 8192 0 gpc0\n' + ''.join('update 1 %d 0 =%s%d 5\n' % (number, 'k' * 8180, number) for number in range(1, count + 1))


def whole_or_none(kind, words, scene):
    """A node and a far side that follows words, in 80 MB of address space and 2 MB less each time, until the node can no longer be loaded. What
    it prints is whole, but for the moments, which depend on the number of turns, or nothing. Without a stack the kernel ends it."""
    _, ample = met(kind, words, 100000, scene)
    wanted, sizes = without_moments(TURNS.sub('', ample.output, 1)), {'whole': 0, 'out of memory': 0, 'without a stack': 0}
    if ample.status:
        check('%s with a far side' % kind, False, ample)
    for kilobytes in range(81920, 0, -2048):
        _, ending = met(kind, words, 100000, scene, ('prlimit', '--as=%d' % (kilobytes * 1024)))
        if ending.status == 127:
            break
        if ending.status == 0:
            sizes['whole'] += 1
            is_right = without_moments(TURNS.sub('', ending.output, 1)) == wanted and not ending.errors
        else:
            sizes['out of memory'] += ending.status == 3
            sizes['without a stack'] += ending.status == -11
            is_right = not ending.output and (ending.status == -11 or ending[::2] in ((3, 'memory\n'), (4, 'device\n')))
        if not is_right:
            check('%s in %d KB' % (kind, kilobytes), False, ending)
    check('%s in less and less memory' % kind, sizes['whole'] and sizes['out of memory'] and sizes['without a stack'] <= 4, sizes)
    print('said %s: in %d sizes whole, in %d out of memory, in %d without a stack' % (kind, *sizes.values()), flush=True)


def memory():
    """The far side has 256 rows with long keys taught to `join`, and itself by `serve`."""
    scene = long_keys(256)
    run = subprocess.run([program, 'lesson'], input=scene, capture_output=True, text=True, check=True)
    lesson = ''.join(re.findall('^[0-9A-F]+$', run.stdout, re.M))
    last = acknowledgement(1, 256).hex().upper()
    whole_or_none('serve', f'{HELLO}0000 <4 ~{len(lesson) // 2} {last} <2 0003 end', scene)
    whole_or_none('join', f'{ACCEPTED}{lesson}0001', tables_of(scene))


GROUPS = {'two-nodes': two_nodes, 'several-sessions': several_sessions, 'far-sides': far_sides, 'memory': memory}

if __name__ == '__main__':
    main(GROUPS)
