"""How a node that stays starts: its configuration, its ports, its command line."""

import contextlib
import os
import socket
import subprocess
import sys
import time

from harness.far import Door, speaks
from harness.node import T1, Node, address
from harness.trial import PATIENCE, Skipped, between, check, equal, require, wait
from harness.wire import hello

NEEDED = b'node n\nlisten 127.0.0.1:%d\n' + T1.encode() + b'\n'


def ends(trial, words, text, status, errors):
    """Checks that the program ends so at once, and prints nothing on standard output."""
    run = trial.run(*words, text=text)
    wanted = status, b'', run.stderr if errors is None else errors
    equal((run.returncode, run.stdout, run.stderr), wanted, '%s with %r' % (' '.join(words), text[-200:]))


def heads_of(lines):
    """Returns how the lines begin that name a fault; warnings stand behind them."""
    return [line.split(b': ')[0] for line in lines if b': warning: ' not in line]


def refused(trial, words, text, heads):
    """Returns the lines on standard error, which say that a configuration is refused and begin so, and warn of others."""
    run = trial.run(*words, text=text)
    lines = run.stderr.splitlines()
    equal((run.returncode, run.stdout, heads_of(lines)), (1, b'', heads), '%s with %r' % (' '.join(words), text[-200:]))
    return lines


@check
def run_with_a_file(trial):
    """`run` with a word that is no option says that the configuration is read from standard input, and other refused words don't"""
    hint = b'The configuration is read from standard input: peers_node run < FILE\n'
    for words, wanted in ((('run', 'node.conf'), True), (('run', '--check', 'node.conf'), True), (('run', '--chek'), False), (('lesson', 'node.conf'), False)):
        run = trial.run(*words)
        equal((run.returncode, run.stdout, run.stderr.endswith(b'\n' + hint)), (2, b'', wanted), ' '.join(words))
        require(run.stderr.startswith(b'error: '), 'what is wrong:', run.stderr)


@check
def refused_configurations(trial):
    """a configuration that breaks a rule is refused, with --check and without"""
    good = NEEDED % trial.ports.next()
    texts: tuple[tuple[bytes, list], ...] = (
        (b'', [None] * 3), (b'# nothing\n\n', [None] * 3), (b'node n\n' + T1.encode() + b'\n', [None]),
        (b'nod m\nnode n\n' + T1.encode() + b'\n', [1, None]), (good + b'nod m\nnode m\n', [4, 5]),
        (good + b'node m\n', [4]), (good + b'admin 10.0.0.1:9\n', [4]), (good + b'admin 127.0.0.1:0\n', [4]), (good + b'peer n\n', [4]),
        (good + b'peer b localhost:9\n', [4]), (good + b'size 2 5\n', [4]), (good + b'\n#\nsize 1 0\n', [6]),
        (good + b'moment 4294967296\n', [4]), (good + b'table 2147483648 t2 integer 4 0\n', [4]), (good + b'peer b\r\r\n', [4]))
    for text, heads in texts:
        wanted = [b'configuration' if line is None else b'line %d' % line for line in heads]
        errors = [refused(trial, words, text, wanted) for words in (('run',), ('run', '--check'))]
        equal(errors[0], errors[1], 'run and run --check with %r' % text[-200:])


@check
def checked_configurations(trial):
    """--check of a configuration that keeps the rules opens no port, and prints nothing but warnings"""
    with socket.create_server(('127.0.0.1', trial.ports.next())) as taken:
        port = taken.getsockname()[1]
        ends(trial, ('run', '--check'), NEEDED % port + b'admin 127.0.0.1:%d\npeer b 127.0.0.1:9\n' % (port - 1), 0, b'')
        ends(trial, ('run', '--check'), NEEDED % port + b'admin 127.0.0.1:%d\npeer b 127.0.0.1:9\n' % port, 0,
             b'line 4: warning: admin: this is the port of "listen" on line 2, where peers connect; use another port for requests\n')


@check
def other_words(trial):
    """other words than run and run --check are no command line"""
    for words in (('run', 'more'), ('run', '--check', 'more'), ('run', '--config', 'x')):
        ends(trial, words, NEEDED % trial.ports.next(), 2, None)


def port_taken(trial, lines, said):
    """Checks that a node says what it can't have, and never connects to its peer."""
    door = Door(trial)
    ends(trial, ('run',), lines + T1.encode() + b'\npeer b %s\n' % address(door.port).encode(), 4, said)
    time.sleep(0.3)
    equal(door.tries, [], 'connections of a node that could not start')


@check
def taken_port(trial):
    """a port that can't be had is a device fault, before any connection is made"""
    with socket.create_server(('127.0.0.1', trial.ports.next())) as taken:
        port = taken.getsockname()[1]
        port_taken(trial, b'node n\nlisten 127.0.0.1:%d\n' % port, b'listen 127.0.0.1:%d: Address already in use\n' % port)
        port_taken(trial, b'node n\nlisten 127.0.0.1:%d\nadmin 127.0.0.1:%d\n' % (trial.ports.next(), port),
                   b'admin 127.0.0.1:%d: Address already in use\n' % port)


@check
def said_for_the_journal(trial):
    """with `log journal`, wherever it stands, each line that is said before the log begins has the number of an error for systemd's journal"""
    with socket.create_server(('127.0.0.1', trial.ports.next())) as taken:
        port = taken.getsockname()[1]
        port_taken(trial, b'log journal # here\nnode n\nlisten 127.0.0.1:%d\n' % port, b'<3>listen 127.0.0.1:%d: Address already in use\n' % port)
    lines = refused(trial, ('run',), b'nod m\nnode m\n\tlog  journal\r\n' + T1.encode(), [b'<3>line 1', b'<3>configuration'])
    require(all(line.startswith(b'<3>') for line in lines), 'each line has the number of an error:', lines)
    run = trial.run('run', text=b'nod m\n# log journal\nlog journals\n')
    require(b'<3>' not in run.stderr, 'no number without such a line:', run.stderr)


@check
def foreign_address(trial):
    """an address that isn't this host's can't be had"""
    port = trial.ports.next()
    port_taken(trial, b'node n\nlisten 203.0.113.1:%d\n' % port, b'listen 203.0.113.1:%d: Cannot assign requested address\n' % port)


# Runs a program as another user, who may have only so many threads; root may have any number.
FEW_THREADS = '''
import os, resource, sys
user, threads = int(sys.argv[1]), int(sys.argv[2])
os.setgid(user)
os.setuid(user)
resource.setrlimit(resource.RLIMIT_NPROC, (threads, threads))
os.execv(sys.argv[3], sys.argv[3:])
'''


@check
def too_few_threads(trial):
    """a thread that can't be started, whichever it is, is a device fault before any connection is made"""
    if os.getuid() != 0:
        raise Skipped('not root')
    door = Door(trial)
    peers = b''.join(b'peer b%d %s\n' % (place, address(door.port).encode()) for place in range(15))
    text = NEEDED % trial.ports.next() + peers

    def run(threads, *words):
        """Runs the program with at most so many threads, as a user who has no other process."""
        command = [sys.executable, '-c', FEW_THREADS, str(60_000 + door.port), str(threads), trial.program, 'run', *words]
        try:
            run = subprocess.run(command, input=text, capture_output=True, timeout=PATIENCE, check=False)
        except subprocess.TimeoutExpired:
            require(False, 'it does not end with %d threads' % threads)
        return run.returncode, run.stdout, run.stderr

    if run(9, '--check')[0] != 0:
        raise Skipped('another user cannot run the program')
    # One thread keeps the log, one the tables, fifteen the peers, and four the doors.
    for threads in (1, 2, 3, 10, 17, 18, 19, 20):
        equal(run(threads), (4, b'', b'threads: Resource temporarily unavailable\n'), 'the end with %d threads' % threads)
    time.sleep(0.3)
    equal(door.tries, [], 'connections of a node that could not start')


@check
def session_without_a_thread(trial):
    """a session for which no thread can be started ends, and the log says so, whoever made the connection"""
    if os.getuid() != 0:
        raise Skipped('not root')
    door = Door(trial)
    node = Node(trial, peers=('b', 'c ' + address(door.port)), admin=False)
    # One thread keeps the log, one the tables, two the peers, and four the doors, beside the first.
    node.within = (sys.executable, '-c', FEW_THREADS, str(60_000 + door.port), '9')
    node.may_end = True
    node.launch()
    with contextlib.suppress(subprocess.TimeoutExpired):
        raise Skipped('another user cannot run the program: status %s' % node.child.wait(1))
    wait(node.listens, PATIENCE, 'the node listens', node.said)
    for name in 'cb':
        if name == 'b':
            speaks(trial, node, hello('n', 'b'))
        said, = node.logs('unreachable', seconds=5, peer=name)
        equal((said.level, 'lacks memory or a thread' in said.sentence), ('warn', True), 'the line about a session')


@check
def in_less_and_less_memory(trial):
    """in less and less address space a node works until it is stopped, or makes no connection and says that memory or a thread is missing"""
    door, worked, lacking, stackless = Door(trial), 0, 0, 0  # Between the first two a node works that has no thread for its session.
    for megabytes in (1024, 768, *range(512, 80, -64), *range(80, 0, -2)):
        node = Node(trial, peers=('b ' + address(door.port),), tables=(T1,))
        node.within, node.may_end = ('prlimit', '--as=%d' % (megabytes << 20)), True
        tries = len(door.tries)
        node.launch()
        wait(lambda: node.child.poll() is not None or len(door.fars) > tries, PATIENCE, 'a node in %d MB connects, or ends' % megabytes, node.said)
        status = node.child.poll()
        if status is None:
            node.admins = wait(node.opened, PATIENCE, 'the admin port is open', node.said)
            equal(node.ask('track t1 7 add gpc0 1'), 'reply 1 - 7 1 local', 'a track in %d MB' % megabytes)
            far = door.fars[-1]
            has_row = wait(lambda: far.rows('t1') == {b'\0\0\0\7': ((1,), None)} or far.over and 'over', PATIENCE, 'a row, or the end of the session')
            require(has_row != 'over' or node.peer('b')['last_end'] == 'error', 'the end of the session:', node.ask('show peers'))
            between(0, node.stop(), 5, 'seconds until it has ended')
            worked += has_row != 'over'
            continue
        equal(len(door.tries), tries, 'connections of a node that could not start in %d MB' % megabytes)
        if status == 127:
            break
        if status == -11:  # The stack has no room to grow.
            stackless += 1
            continue
        require((status, node.said()) in ((3, b'memory\n'), (4, b'threads: Resource temporarily unavailable\n')), 'the end in %d MB:' % megabytes,
                status, node.said())
        lacking += 1
    require(worked and lacking and stackless <= 4, 'sizes that work, in which something is missing, and without a stack:', worked, lacking, stackless)


@check
def same_port_again(trial):
    """a node that is killed and starts again at once has its ports again"""
    node = Node(trial, peers=()).start()
    node.ask('track t1 7 add gpc0 1')
    node.kill()
    node.again()
    equal(node.ask('get t1 7'), 'none', 'the row')


@check
def end_of_input(trial):
    """the end of standard input is no stop"""
    node = Node(trial, peers=()).start()
    time.sleep(0.5)
    equal((node.ask('get t1 7'), node.child.poll()), ('none', None), 'the answer, and the status')


@check
def terminated(trial):
    """SIGTERM ends a node at once"""
    node = Node(trial, peers=()).start()
    node.may_end = True
    node.child.terminate()
    equal(node.child.wait(5), -15, 'the status')
