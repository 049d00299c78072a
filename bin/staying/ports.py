"""The ports of a node that stays: the one of metrics, the socket at a file, what can't be had, and what becomes of a node whose descriptors
are at their limit, or that was suspended."""

import contextlib
import os
import signal
import socket
import stat
import subprocess
import threading
import time

from harness.far import Door, Far, Manners, connected, kept_open, speaks, status_of
from harness.node import T1, Admin, Node, address
from harness.ports import held
from harness.program import processor_seconds
from harness.trial import PATIENCE, Folder, Late, Skipped, between, check, equal, matches, require, wait
from harness.wire import REQUEST, hello
from staying.requests import GOOD, PAGES, alone, is_page, is_untouched, with_body
from staying.resyncs import long_rows
from staying.sessions import up_to_date


class Metered(Node):
    """A node with a port of metrics."""

    def __init__(self, trial, more=(), **other):
        self.metrics_port = trial.ports.next()
        super().__init__(trial, more=(*more, 'metrics ' + address(self.metrics_port)), **other)

    def visit(self):
        """Returns a new connection to its port of metrics."""
        return self.trial.closes(Admin(self.metrics_port, self.host))

    def sees(self, *pieces):
        """Returns all that comes from its port of metrics for some pieces of bytes."""
        return self.visit().answer(*pieces)

    def page(self, path, method='GET'):
        """Returns what its port of metrics answers to a request for a page."""
        return self.sees('%s %s HTTP/1.1\r\nHost: n\r\n\r\n' % (method, path))


# --- The port of metrics

@check
def metrics_port(trial):
    """the port of metrics answers the pages of HTTP as the admin port does"""
    node = Metered(trial, peers=(), tables=(T1,)).start()
    node.ask('track t1 7 add gpc0 1')
    for path, page in PAGES:
        equal(is_page(node.page(path), 200, path), page, 'the page ' + path)
        equal(is_page(node.page(path + '?a=b'), 200, path), page, 'the page %s with a query' % path)
        require(node.page(path, 'HEAD').endswith(b'\r\n\r\n'), 'a HEAD of', path)
    body = is_page(node.page('/metrics'), 200, '/metrics')
    require('\nhaproxy_sticktable_used{name="t1",type="integer"} 1\n' in body, 'the metrics:', body)
    node.ask('track t1 8 add gpc0 1')
    equal(node.page('/metrics').count(b'\nhaproxy_sticktable_used{name="t1",type="integer"} 1\n'), 1, 'the page is kept')
    time.sleep(1)
    equal(node.page('/metrics').count(b'\nhaproxy_sticktable_used{name="t1",type="integer"} 2\n'), 1, 'the page after a second')
    is_page(node.page('/nothing'), 404, 'another path')
    is_page(node.page('/', 'POST'), 405, 'another method', 'GET, HEAD')
    is_page(node.sees('GET / HTTP/2.0\r\n\r\n'), 505, 'another version')
    is_page(node.sees('GET /ready HT', 'TP/1.1\r\nHo', 'st: n\r\n', '\r\n'), 200, 'a request in pieces')
    between(0, node.stop(), 5, 'seconds until it has ended')


def own_address():
    """Returns an address of this host that isn't a loopback one, if there is one."""
    with socket.socket(socket.AF_INET, socket.SOCK_DGRAM) as asks, contextlib.suppress(OSError):
        asks.connect(('203.0.113.1', 9))
        found = asks.getsockname()[0]
        return None if found.startswith('127.') else found
    return None


@check
def metrics_at_any_address(trial):
    """the port of metrics may be at any address: at all of the host's, at one that isn't loopback, at one of IPv6"""
    for host, at in (('0.0.0.0', '127.0.0.1'), (own_address(),) * 2, ('[::]', '::1'), ('[::1]', '::1')):
        port = trial.ports.next()
        guard = at and held(port, at)
        if guard is None:
            continue
        guard.close()
        node = Node(trial, peers=(), tables=(T1,), more=('metrics %s:%d' % (host, port),)).start()
        visit = trial.closes(Admin(port, at))
        visit.send('GET /ready HTTP/1.1\r\n\r\n')
        is_page(visit.rest(), 200, 'the page at ' + host)
        node.stop()


@check
def metrics_read_only(trial):
    """nothing that comes to the port of metrics changes anything, or stops the node"""
    node = Metered(trial, peers=(), tables=(T1,)).start()
    for data in (GOOD, 'track t1 7 add gpc0 1\n', 'stop\n', 'stop', 'get t1 7\n', '\n' + GOOD, '\0' * 100 + '\n' + GOOD):
        came = node.sees(data, GOOD)
        equal(came, b'refused\n', 'the answer to %r' % data)
    equal(node.sees('show rows\n' + GOOD), b'refused\n.\n', 'the answer to show rows')
    for line, status, allow in (('GET /metrics HTTP/1.1', 200, None), ('GET stop HTTP/1.0', 404, None), ('POST / HTTP/1.1', 405, 'GET, HEAD'),
                                ('track t1 HTTP/1.1', 405, 'GET, HEAD'), ('stop stop HTTP/1.1', 405, 'GET, HEAD'), ('GET / HTTP/3', 505, None)):
        for data in with_body(line):
            is_page(node.sees(data), status, repr(data), allow)
    equal(node.sees('x' * 40_000 + '\n' + GOOD), b'refused\n', 'the answer to a line that is too long')
    with contextlib.suppress(OSError):
        node.sees((GOOD * 100_000).encode())
    is_untouched(node, 'all of them')


def goes_oldest(visits, count):
    """Tests that `count` visits are over, all among the oldest: each time one of those that none of four threads looks at."""
    over = [visit.is_over() for visit in visits]
    require(sum(over) == sum(over[:count + 4]) == count, 'which are over, the oldest first, and not', count, 'of the oldest:', over)


@check
def metrics_visits(trial):
    """of 33 connections to the port of metrics the one goes that has been idle longest of those that wait for its four threads, and
    idle ones delay no answer"""
    node = Metered(trial, peers=(), tables=(T1,)).start()
    visits = []
    for _ in range(32):
        visits.append(node.visit())
        time.sleep(0.05)
    time.sleep(0.6)
    for count in range(1, 6):
        visits.append(node.visit())
        time.sleep(0.1)
        goes_oldest(visits, count)
    begun = time.monotonic()
    is_page(node.page('/ready'), 200, 'a request beside 32 idle connections')
    between(0, time.monotonic() - begun, 1, 'seconds until it is answered')
    goes_oldest(visits, 6)
    standing = [visit for visit in visits if not visit.is_over()]
    for visit in standing:
        visit.send('GET /ready HTTP/1.1\r\n\r\n')
    for visit in standing:
        is_page(visit.rest(3), 200, 'a request of one that was idle')


@check
def metrics_burst(trial):
    """of clients that come to the port of metrics at once each is answered, told 503, or closed for a later one"""
    node = Metered(trial, peers=(), tables=(T1,)).start()
    used = processor_seconds(node.child.pid)
    visits = [node.visit() for _ in range(100)]
    time.sleep(1)
    standing = [visit for visit in visits if not visit.peer.setblocking(False) and nothing_came(visit)]
    require(len(standing) <= 32, 'connections that stand:', len(standing))
    for visit in visits:
        if visit not in standing:
            came = visit.rest()
            require(not came or is_page(came, 503, 'one too many') == '', 'what another one gets:', came)
    between(0, processor_seconds(node.child.pid) - used, 2, 'processor time, in s')
    for visit in standing:
        visit.send('GET /ready HTTP/1.1\r\n\r\n')
        is_page(visit.rest(3), 200, 'a request of one that stands')
    is_page(node.page('/ready'), 200, 'a request later')


@check
def metrics_too_many(trial):
    """while no thread has found any of 32 connections to the port of metrics idle, one too many is told so by 503, and the others stay"""
    node = Metered(trial, peers=(), tables=(T1,)).start()
    node.child.send_signal(signal.SIGSTOP)  # So that all are accepted at once.
    visits = [node.visit() for _ in range(35)]
    for visit in visits[32:]:
        visit.send('GET /ready HTTP/1.1\r\n\r\n')
    node.child.send_signal(signal.SIGCONT)
    for visit in visits[32:]:
        came = visit.rest(3)
        # A thread takes 50 ms to find a connection idle, which then makes room.
        require(came.startswith(b'HTTP/1.1 503 '), 'what one too many gets:', came, wrong=Late)
        equal(is_page(came, 503, 'one too many'), '', 'the body of what one too many gets')
    for visit in visits[:32]:
        visit.send('GET /ready HTTP/1.1\r\n\r\n')
    for visit in visits[:32]:
        is_page(visit.rest(3), 200, 'a request of one that stands')


def sends_bit_by_bit(visits):
    """Has clients of HTTP send the head of a request bit by bit, until they are closed."""
    def play():
        while any(visit.peer.fileno() >= 0 for visit in visits):
            for visit in visits:
                with contextlib.suppress(OSError):
                    visit.send('X: y\r\n')
            time.sleep(0.02)
    for visit in visits:
        visit.send('GET /metrics HTTP/1.1\r\n')
    threading.Thread(target=play, daemon=True).start()


@check
def metrics_beside_the_slow(trial):
    """20 clients of the port of metrics that send a head bit by bit delay no other's answer, nor do they lose their place to it"""
    node = Metered(trial, peers=(), tables=(T1,)).start()
    slow = [node.visit() for _ in range(20)]
    sends_bit_by_bit(slow)
    time.sleep(0.5)
    for _ in range(10):
        begun = time.monotonic()
        is_page(node.page('/metrics'), 200, 'a request beside them')
        between(0, time.monotonic() - begun, 1, 'seconds until it is answered')
    equal([visit.is_over() for visit in slow], [False] * 20, 'which of them are over')


def nothing_came(visit):
    """Whether a connection stands, and nothing has come on it."""
    try:
        visit.peer.recv(1, socket.MSG_PEEK)
    except BlockingIOError:
        return True
    except ConnectionError:
        return False
    return False


@check
def metrics_idle(trial):
    """a connection to the port of metrics without a request for 60 s ends, whatever bytes come on it"""
    node = Metered(trial, peers=(), tables=(T1,)).start()
    silent, slow = node.visit(), node.visit()
    begun = time.monotonic()
    slow.send('GET /metrics HTTP/1.1\r\n')
    while time.monotonic() < begun + 57:
        slow.send('X: y\r\n')
        time.sleep(1)
    equal((silent.is_over(), slow.is_over()), (False, False), 'connections that are over after 57 s')
    equal((silent.rest(), slow.rest()), (b'', b''), 'what idle clients get')
    between(59.5, time.monotonic() - begun, 63, 'seconds until they are over')


# --- The socket at a file

def at_file(trial, path, admin=False, **other):
    """Returns a node that takes requests at a file."""
    return Node(trial, peers=(), tables=(T1,), more=('admin unix:' + path,), admin=admin, **other)


def started_at(trial, path, **other):
    """Returns a node that takes requests at a file, once the file is there."""
    node = at_file(trial, path, **other).start()
    wait(lambda: os.path.exists(path), PATIENCE, 'the file is there', node.said)
    return node


@check
def admin_socket(trial):
    """a socket at a file takes requests, is its owner's alone, and is removed at the end"""
    path = Folder(trial).path()
    node = started_at(trial, path)
    found = os.stat(path)
    equal((stat.S_ISSOCK(found.st_mode), stat.S_IMODE(found.st_mode), found.st_uid), (True, 0o600, os.getuid()), 'the file')
    wire = trial.closes(Admin(path))
    equal(wire.ask('track t1 7 add gpc0 5'), 'reply 1 - 7 5 local', 'a track')
    equal(wire.ask('show rows'), ['row 1 - 7 5'], 'the rows')
    other = trial.closes(Admin(path))
    other.send('GET /ready HTTP/1.1\r\n\r\n')
    is_page(other.rest(), 200, 'a client of HTTP')
    wire.send('nonsense\n')
    equal(wire.rest(), b'refused\n', 'the answer to a line that cannot be read')
    last = trial.closes(Admin(path))
    equal(last.ask('stop'), 'ok', 'the answer to stop')
    equal(node.child.wait(5), 0, 'the status')
    require(not os.path.exists(path), 'the file is there after the end')


@check
def admin_ports(trial):
    """both the port and the socket take requests, over 32 connections in all"""
    path = Folder(trial).path()
    node = at_file(trial, path, admin=True).start()
    wires = [trial.closes(Admin(path)) for _ in range(31)]
    for wire in wires:
        equal(wire.ask('get t1 7'), 'none', 'an answer')
        time.sleep(0.01)
    time.sleep(0.2)
    equal(node.ask('track t1 7 add gpc0 1'), 'reply 1 - 7 1 local', 'a track at the port')
    equal(node.admin().ask('get t1 7'), 'row 1 - 7 1', 'an answer to one more')
    equal([wire.is_over() for wire in wires[:2]], [True, False], 'which of the oldest are over')
    between(0, node.stop(), 5, 'seconds until it has ended')
    require(not os.path.exists(path), 'the file is there after the end')


@check
def wide_umask(trial):
    """nobody else can open the file of a socket, whatever the umask says"""
    path = Folder(trial).path()
    node = at_file(trial, path)
    node.within = ('sh', '-c', 'umask 0; exec "$@"', 'sh')
    node.start()
    wait(lambda: os.path.exists(path), PATIENCE, 'the file is there', node.said)
    equal(stat.S_IMODE(os.stat(path).st_mode), 0o600, 'the mode of the file')


@check
def stale_socket(trial):
    """the file of a socket that nobody listens on is replaced"""
    path = Folder(trial).path()
    node = started_at(trial, path)
    node.kill()
    require(os.path.exists(path), 'the file is there after a kill')
    before = os.stat(path).st_mtime_ns
    node.again()
    wait(lambda: os.stat(path).st_mtime_ns != before, PATIENCE, 'the file is another one', node.said)
    equal(trial.closes(Admin(path)).ask('stop'), 'ok', 'the answer to stop')
    equal((node.child.wait(5), os.path.exists(path)), (0, False), 'the status, and whether the file is there')


@check
def replaced_socket(trial):
    """the file of another socket that has taken the place of the node's isn't removed at the end"""
    folder = Folder(trial)
    path, other = folder.path(), folder.path('other')
    node = started_at(trial, path, admin=True)
    with socket.socket(socket.AF_UNIX) as made:
        made.bind(other)
        os.rename(other, path)
        before = os.stat(path).st_ino
        node.stop()
        equal(os.stat(path).st_ino, before, 'the file')


def fails(trial, text, line, status=4):
    """Checks that a node with this configuration ends so, and says why in this line."""
    run = trial.run('run', text=text.encode())
    equal((run.returncode, run.stdout), (status, b''), 'the end with %r' % text)
    matches(line, run.stderr.decode(), 'standard error with %r' % text)


def with_lines(trial, *lines, listen=None):
    """Returns a configuration with these lines."""
    return '\n'.join(('node n', 'listen ' + (listen or address(trial.ports.next())), T1, *lines)) + '\n'


@check
def foreign_files(trial):
    """a file that isn't the node's stays as it is, and the node says that it can't have the socket"""
    folder = Folder(trial)
    path = folder.path()
    with open(path, 'w') as file:
        file.write('mine')
    fails(trial, with_lines(trial, 'admin unix:' + path), r'admin unix:%s: .*isn.t a socket\n' % path)
    with open(path) as file:
        equal(file.read(), 'mine', 'the file')
    os.mkdir(folder.path('d'))
    fails(trial, with_lines(trial, 'admin unix:' + folder.path('d')), r'admin unix:%s: .*isn.t a socket\n' % folder.path('d'))
    os.symlink(path, folder.path('l'))
    fails(trial, with_lines(trial, 'admin unix:' + folder.path('l')), r'admin unix:%s: .*isn.t a socket\n' % folder.path('l'))
    require(os.path.islink(folder.path('l')) and os.path.isdir(folder.path('d')), 'the link and the folder are there')
    fails(trial, with_lines(trial, 'admin unix:' + folder.path('no/s')), r'admin unix:%s: No such file or directory\n' % folder.path('no/s'))


@check
def socket_in_use(trial):
    """a socket that somebody listens on stays as it is"""
    path = Folder(trial).path()
    started_at(trial, path)
    before = os.stat(path).st_ino
    fails(trial, with_lines(trial, 'admin unix:' + path), 'admin unix:%s: Address already in use\n' % path)
    equal(os.stat(path).st_ino, before, 'the file')
    wire = trial.closes(Admin(path))
    equal(wire.ask('get t1 7'), 'none', 'the answer of the node that has it')
    with socket.create_server(('127.0.0.1', trial.ports.next())) as taken:
        port = taken.getsockname()[1]
        free = path + '2'
        fails(trial, with_lines(trial, 'admin unix:' + free, 'metrics ' + address(port)), 'metrics %s: Address already in use\n' % address(port))
        require(not os.path.exists(free), 'a file of a node that did not start')


@check
def socket_of_another_kind(trial):
    """a socket to which no connection can be made stays as it is, and the node says why none can"""
    path = Folder(trial).path()
    with socket.socket(socket.AF_UNIX, socket.SOCK_DGRAM) as other:
        other.bind(path)
        before = os.stat(path).st_ino
        fails(trial, with_lines(trial, 'admin unix:' + path), 'admin unix:%s: Protocol wrong type for socket\n' % path)
        equal(os.stat(path).st_ino, before, 'the file')


# --- What can't be had

@check
def devices(trial):
    """a port that can't be had is named, with the system's reason"""
    with socket.create_server(('127.0.0.1', trial.ports.next())) as taken, socket.socket(socket.AF_INET6) as taken6:
        port = taken.getsockname()[1]
        in_use = 'Address already in use\n'
        fails(trial, with_lines(trial, listen=address(port)), 'listen %s: %s' % (address(port), in_use))
        fails(trial, with_lines(trial, 'admin ' + address(port)), 'admin %s: %s' % (address(port), in_use))
        fails(trial, with_lines(trial, 'metrics ' + address(port)), 'metrics %s: %s' % (address(port), in_use))
        with contextlib.suppress(OSError):
            taken6.bind(('::1', trial.ports.next()))
            taken6.listen()
            place = '[::1]:%d' % taken6.getsockname()[1]
            fails(trial, with_lines(trial, listen=place), r'listen \[::1\]:%d: %s' % (taken6.getsockname()[1], in_use))
            fails(trial, with_lines(trial, 'metrics ' + place), r'metrics \[::1\]:%d: %s' % (taken6.getsockname()[1], in_use))
    for line in ('listen', 'metrics'):
        text = with_lines(trial, 'metrics 203.0.113.1:9101') if line == 'metrics' else with_lines(trial, listen='203.0.113.1:9101')
        fails(trial, text, '%s 203.0.113.1:9101: Cannot assign requested address\n' % line)


@check
def privileged_port(trial):
    """a port below 1024 is refused to a user who may not have it"""
    if os.getuid() != 0:
        raise Skipped('not root')
    text = with_lines(trial, listen='127.0.0.1:81')
    command = ['setpriv', '--reuid=60001', '--regid=60001', '--clear-groups', '--bounding-set=-all', '--inh-caps=-all', trial.program, 'run']
    run = subprocess.run(command, input=text.encode(), capture_output=True, timeout=PATIENCE, check=False)
    with open('/proc/sys/net/ipv4/ip_unprivileged_port_start') as file:
        if int(file.read()) <= 81 or run.returncode in (126, 127):
            raise Skipped('another user may have it, or cannot run the program')
    equal((run.returncode, run.stderr), (4, b'listen 127.0.0.1:81: Permission denied\n'), 'the end')


# --- Descriptors at their limit

def held_by(trial, **other):
    """Returns how many descriptors such a node holds that has as many as it wants, and to which nobody connects."""
    node = Metered(trial, **other).start()
    held_now = '/proc/%d/fd' % node.child.pid
    node.admins.close()
    # The fewest at several looks, since an attempt to connect holds one more.
    count = min(count_after(held_now, 0.1) for _ in range(8))
    node.kill()
    return count


def count_after(folder, seconds):
    """Returns how many entries a folder has, after so many seconds."""
    time.sleep(seconds)
    return len(os.listdir(folder))


@check
def few_descriptors(trial):
    """a node whose descriptors are at their limit says so, keeps its sessions and its clients, is idle, and takes others once there is room"""
    other = {'peers': ('b', 'c'), 'tables': (T1,), 'more': ('log error',)}
    limit = held_by(trial, **other) + 8
    node = Metered(trial, **other)
    node.within = ('prlimit', '--nofile=%d' % limit)
    node.start()
    b = connected(trial, node)
    up_to_date(node)
    waiting = node.visit()
    crowd = [node.admin() for _ in range(20)] + [kept_open((node.host, node.port)) for _ in range(20)] + [node.visit() for _ in range(20)]
    time.sleep(1)
    for port in ('peers', 'admin', 'metrics'):
        said, = node.logs('not-accepted', port=port)
        equal(said.level, 'error', 'the level of a line about ' + port)
        require('(Too many open files)' in said.sentence, 'the log says why nobody can connect:', said)
    equal({said.level for said in node.logged()}, {'error'}, 'levels of the log of errors')
    waiting.send('GET /metrics HTTP/1.1\r\n\r\n')
    page = waiting.rest().decode('ascii')
    require('\nprocess_open_fds %d\n' % limit in page and '\nprocess_resident_memory_bytes ' in page, 'the metrics of the process:', page)
    used = processor_seconds(node.child.pid)
    for key in range(20):
        equal(node.admins.ask('track t1 %d add gpc0 1' % key), 'reply %d - %d 1 local' % (key + 1, key), 'a track')
        b.gets_row('t1', key, (1,), 3)
        time.sleep(0.1)
    b.stands()
    between(0, processor_seconds(node.child.pid) - used, 1, 'processor time in two seconds, in s')
    for one in crowd:
        one.close()
    c = wait(lambda: comes(trial, node), 15, 'a peer comes once there is room', node.said, pause=0.5)
    c.gets_row('t1', 7, (1,), 15)
    is_page(node.page('/ready'), 200, 'a request later')
    between(0, node.stop(), 5, 'seconds until it has ended')


def comes(trial, node):
    """Returns a far side named c, if the node takes it."""
    peer = kept_open((node.host, node.port))
    with contextlib.suppress(OSError):
        peer.sendall(hello('n', 'c') + REQUEST)
        peer.settimeout(3)
        if status_of(peer, 3) == b'200\n':
            return trial.closes(Far(peer))
    peer.close()
    return None


def is_answered(node):
    """Whether a client gets an answer: a connection for which there is no descriptor waits."""
    client = node.admin()
    client.send('get t1 7\n')
    client.peer.settimeout(2)
    with contextlib.suppress(OSError):
        return client.peer.recv(100) == b'none\n'
    return False


@check
def starts_with_few_descriptors(trial):
    """a node that starts with few descriptors has all its ports, and else says which it can't have, with the system's reason, and never connects"""
    door, path, ways = Door(trial), Folder(trial).path(), set()
    other = {'peers': ('b ' + address(door.port),), 'tables': (T1,), 'more': ('admin unix:' + path,)}
    most = held_by(trial, **other) + 4
    os.remove(path)
    for limit in range(most, 3, -1):
        node = Metered(trial, **other)
        node.within, node.may_end = ('prlimit', '--nofile=%d' % limit), True
        tries = len(door.tries)
        node.launch()
        wait(lambda node=node: node.child.poll() is not None or node.said().count(b' event=listening ') == 4, PATIENCE, 'it starts, or ends', node.said)
        status = node.child.poll()
        if status is None:
            ways.add('answers' if is_answered(node) else 'waits')
            node.kill()
            os.remove(path)
            continue
        if status in (126, 127):  # It can't be loaded.
            break
        line = matches(r'(listen|admin|metrics) \S+: Too many open files\n', node.said().decode(), 'standard error with %d descriptors' % limit)
        equal((status, len(door.tries), os.path.exists(path)), (4, tries, False), 'the status, connections, and whether the file of the socket is there')
        ways.add(line[1])
    require({'answers', 'listen', 'admin', 'metrics'} <= ways, 'what became of it:', ways)


@check
def stop_without_descriptors(trial):
    """stop ends a node within 5 s while no descriptor is left, for want of which a peer is unreachable"""
    other = {'peers': ('b', 'c 127.0.0.1:9'), 'tables': (T1,)}
    limit = held_by(trial, **other) + 4
    node = Metered(trial, **other)
    node.within = ('prlimit', '--nofile=%d' % limit)
    node.start()
    b = connected(trial, node)
    up_to_date(node)
    for _ in range(10):
        trial.closes(kept_open((node.host, node.port)))
        trial.closes(node.admin())
    wait(lambda: any('Too many open files' in said.sentence for said in node.logged('unreachable', peer='c')), 8, 'why a peer is unreachable', node.said)
    node.admins.send('stop\n')
    begun = time.monotonic()
    equal(node.admins.line(), 'ok', 'the answer to stop')
    equal(node.child.wait(6), 0, 'the status')
    between(0, time.monotonic() - begun, 5, 'seconds until it has ended')
    b.ends(1)


# --- No memory left

@check
def without_memory(trial):
    """a node that has no memory left for a request still obeys stop"""
    node = Node(trial, peers=(), tables=('table 1 long string 8192 0 gpc0',))
    node.within = ('prlimit', '--as=%d' % (512 << 20))
    node.launch()
    with contextlib.suppress(subprocess.TimeoutExpired):
        raise Skipped('the program does not start in 512 MB: status %s' % node.child.wait(1))
    client = wait(node.opened, PATIENCE, 'the admin port is open', node.said)
    filled(node, client)
    for _ in range(40):  # Whoever comes now is served as far as memory goes.
        client = node.admin()
        with contextlib.suppress(OSError):
            client.send('track long =%s add gpc0 1\n' % ('y' * 8000))
            client.peer.recv(100)
        client.close()
    last = node.admin()
    begun = time.monotonic()
    last.send('stop\n')
    equal((last.line(), node.child.wait(6)), ('ok', 0), 'the answer to stop, and the status')
    between(0, time.monotonic() - begun, 5, 'seconds until it has ended')


def filled(node, client):
    """Tracks long keys until a request isn't answered any more."""
    for place in range(1_000):
        with contextlib.suppress(OSError):
            client.send(''.join('track long =%s%d add gpc0 1\n' % ('x' * 8000, 100 * place + key) for key in range(100)))
        for _ in range(100):
            line = client.line(20)
            if line is None:
                return
            require(line.startswith('reply '), 'a track:', line)
    require(False, 'the node takes 100,000 keys of 8 kB:', '%d MiB' % node.memory())


# --- A host that is suspended

@check
def suspended(trial):
    """a node that was suspended for 30 s finds its sessions dead, ends them, and has others"""
    door = Door(trial)
    node = Metered(trial, peers=('b', 'c ' + address(door.port)), tables=('table 1 t1 integer 4 0 gpc0',)).start()
    b = connected(trial, node)
    c = wait(lambda: door.fars and door.fars[0], PATIENCE, 'the node connects', node.said)
    up_to_date(node)
    node.ask('track t1 7 add gpc0 1')
    b.gets_row('t1', 7, (1,), 3)
    c.gets_row('t1', 7, (1,), 3)
    node.child.send_signal(signal.SIGSTOP)
    time.sleep(1)
    b.reset()
    waiting = node.admin()
    waiting.send('track t1 8 add gpc0 1\n')
    time.sleep(29)
    used = processor_seconds(node.child.pid)
    node.child.send_signal(signal.SIGCONT)
    equal(waiting.line(5), 'reply 2 - 8 1 local', 'the answer to a track that came meanwhile')
    between(29_000, max(int(said.keys['ms']) for said in node.logs('held-up')), 40_000, 'ms for which it stood still, as the log says')
    wait(lambda: node.peer('b')['state'] == 'down', 5, 'the dead session is over', lambda: node.ask('show peers'))
    again = connected(trial, node)
    again.gets_row('t1', 8, (1,), 5)
    wait(lambda: door.fars and door.fars[-1].over is None and door.fars[-1].rows('t1').get((8).to_bytes(4, 'big')), 15,
         'the other peer has the row', node.said)
    equal(node.ask('get t1 7'), 'row 1 - 7 1', 'a row from before')
    time.sleep(1)
    between(0, processor_seconds(node.child.pid) - used, 3, 'processor time since, in s')
    between(0, node.stop(), 5, 'seconds until it has ended')


# --- Stops

@check
def stops_beside_deaf_clients(trial):
    """stop ends a node within 5 s while 31 clients don't read their answers"""
    node = alone(trial, tables=('table 1 long string 8192 0 gpc0',))
    long_rows(node, 512)
    deaf = []
    for _ in range(31):
        deaf.append(trial.closes(kept_open((node.host, node.admin_port), buffer=2048)))
        deaf[-1].sendall(b'show rows\n' * 20)
    time.sleep(1)
    between(0, node.stop(), 5, 'seconds until it has ended')


@check
def stops_beside_the_mute(trial):
    """stop ends a node within 5 s beside a peer that says nothing, hellos that don't end, and one that can't be reached"""
    node = Metered(trial, peers=('b', 'c 203.0.113.1:9', 'd'), tables=(T1,)).start()
    mute = connected(trial, node, manners=Manners(beats=False, acks='none', answer=b''))
    node.admins.send('track t1 7 add gpc0 1\n')
    for _ in range(6):
        speaks(trial, node, hello('n', 'd')[:9])
    visits = [node.visit() for _ in range(8)]
    visits[0].send('GET /metrics HTTP/1.1\r\n')
    time.sleep(0.5)
    admin = node.admin()
    begun = time.monotonic()
    equal(admin.ask('stop'), 'ok', 'the answer to stop')
    equal(node.child.wait(6), 0, 'the status')
    between(0, time.monotonic() - begun, 5, 'seconds until it has ended')
    mute.ends(1)
    for visit in visits:
        equal(visit.rest(), b'', 'what a client of the port of metrics gets')


@check
def bursts(trial):
    """clients that come to the admin port at once, each with a request, are answered, though more than 32 stay"""
    node = alone(trial, tables=(T1,))
    for key in range(4):
        clients = []
        for _ in range(60):
            clients.append(kept_open((node.host, node.admin_port)))
            clients[-1].sendall(b'get t1 %d\n' % key)
        for client in clients:
            equal(answer_of(client), b'none\n', 'the answer to one of 60 clients')
        for client in clients:
            client.close()


def answer_of(client):
    """Returns the first bytes that come on a connection, up to 100."""
    client.settimeout(5)
    with contextlib.suppress(OSError):
        return client.recv(100)
    return None
