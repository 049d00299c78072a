"""The admin port of a node that stays: its requests, their answers, and its bounds."""

import contextlib
import http.client as http_client
import os
import re
import subprocess
import threading
import time
from typing import Any

from harness.far import Manners, connected, speaks
from harness.node import T1, Admin, Node, address, reply
from harness.tables import FIRST_MOMENT
from harness.trial import PATIENCE, Folder, Skipped, between, check, equal, matches, require, wait
from harness.wire import CONFIRMED, FINISHED, REQUEST, acknowledgement, definition, hello, table, update
from staying.resyncs import long_rows, tracked
from staying.sessions import node_of_b, up_to_date, with_b, with_c

KINDS = ('table 1 t1 integer 4 30000 gpc0', 'table 2 v4 ipv4 4 0 gpc0', 'table 3 v6 ipv6 16 0 gpc0', 'table 4 st string 9 0 gpc0 server_key',
         'table 5 bin binary 3 0 bytes_in_cnt', 'table 6 r integer 4 0 gpc0_rate:10000')


# The man page of `run`.
UNIT = os.path.join(os.path.dirname(os.path.abspath(__file__)), '../../dist/digbaro.service')


def alone(trial, tables=KINDS, **other):
    """Returns a node without peers, which is up to date at once."""
    return Node(trial, peers=(), tables=tables, **other).start()


def answers(node, pairs):
    """Checks the answers to requests of one line."""
    for request, answer in pairs:
        equal(node.ask(request), answer, request)


@check
def tracks(trial):
    """each kind of change of a row is answered with the row"""
    node = alone(trial)
    before = node.head()
    equal((before['up_to_date'], node.ask('show peers')[0].split(' ')[:2]), ('yes', ['node', 'n']), 'up to date without peers')
    number, ends, rest = reply(node.ask('track t1 7 add gpc0 5'))
    after = node.head()
    equal((number, rest), (1, '7 5 local'), 'the row')
    between(int(before['moment']) + 30000, int(ends), int(after['moment']) + 30000, 'its end')
    between(FIRST_MOMENT, int(before['moment']), node.moment(), 'the moment')
    equal([reply(node.ask('track t1 7 ' + change))[::2] for change in ('add gpc0 2', 'take gpc0 3', 'take gpc0 9', 'put gpc0 8')],
          [(2, '7 7 local'), (3, '7 4 local'), (4, '7 0 local'), (5, '7 8 local')], 'changes')
    equal(reply(node.ask('track t1 7 add gpc0 18446744073709551615'))[2], '7 4294967295 local', 'the greatest value')
    answers(node, (('track st =a name s1', 'reply 1 - =a 0 s1 local'), ('track st =a add gpc0 1', 'reply 2 - =a 1 s1 local'),
                   ('track st =a name -', 'reply 3 - =a 1 - local'), ('track bin 00ff7f add bytes_in_cnt 18446744073709551615',
                                                                     'reply 1 - 00FF7F 18446744073709551615 local'),
                   ('track v4 7F000001 add gpc0 1', 'reply 1 - 7F000001 1 local'),
                   ('track v6 %s add gpc0 1' % ('0' * 31 + '1'), 'reply 1 - %s 1 local' % ('0' * 31 + '1'))))
    matches(r'reply 1 - 7 [0-9]+/4/0 local', node.ask('track r 7 rate gpc0_rate 4'), 'a rate')
    matches(r'reply 2 - 7 [0-9]+/6/0 local', node.ask('track r 7 rate gpc0_rate 2'), 'a rate')


@check
def refused_tracks(trial):
    """a change that a table refuses is answered with the refusal's name, and changes nothing"""
    node = alone(trial, more=('size 1 1', 'nopurge 1'))
    events = node.events()
    answers(node, (('track t9 7 add gpc0 1', 'NoTable'), ('track t9 =a add gpc0 1', 'NoTable'), ('track t1 =a add gpc0 1', 'WrongKey'),
                   ('track st 7 add gpc0 1', 'WrongKey'), ('track st =123456789 add gpc0 1', 'WrongKey'),
                   ('track bin 00 add bytes_in_cnt 1', 'WrongKey'), ('track t1 7 add gpc1 1', 'NoSuchData'), ('track t1 7 rate gpc0 1', 'NoSuchData'), ('track t1 7 name s1', 'NoSuchData'),
                   ('track r 7 add gpc0_rate 1', 'NoSuchData'), ('track st =a add server_key 1', 'NoSuchData'), ('get t9 7', 'NoTable'),
                   ('get t1 =a', 'WrongKey'), ('get st 7', 'WrongKey'), ('get t1 8', 'none')))
    equal(node.events(), events, 'events')
    equal(reply(node.ask('track t1 7 add gpc0 1'))[2], '7 1 local', 'a track that fits')
    equal(node.events(), events + 1, 'events after it')
    equal(node.ask('track t1 8 add gpc0 1'), 'TableFull', 'a track of a key too many')


@check
def addresses(trial):
    """a key that is an address is read in its usual form too, and a row of it shown in either is one row"""
    node = alone(trial)
    answers(node, (('track v4 10.0.0.1 add gpc0 1', 'reply 1 - 0A000001 1 local'),
                   ('track v4 0A000001 add gpc0 1', 'reply 2 - 0A000001 2 local'),
                   ('track v4 255.255.255.255 add gpc0 1', 'reply 3 - FFFFFFFF 1 local'), ('get v4 10.0.0.1', 'row 2 - 0A000001 2')))
    texts = (('2001:db8::1', '20010DB8' + '0' * 23 + '1'), ('::', '0' * 32), ('2001:DB8:0:0:0:0:0:01', '20010DB8' + '0' * 23 + '1'),
             ('::ffff:10.0.0.1', '0' * 20 + 'FFFF0A000001'), ('1:2:3:4:5:6:7:8', '00010002000300040005000600070008'))
    for place, (text, key) in enumerate(texts):
        matches('reply %d - %s [12] local' % (place + 1, key), node.ask('track v6 %s add gpc0 1' % text), 'a track of ' + text)
        matches('row 3 - %s [12]' % key, node.ask('get v6 ' + text), 'the row of ' + text)
        equal(node.ask('get v6 ' + text), node.ask('get v6 ' + key), 'the row of ' + text)
    for name, table_rows in (('v4', 2), ('v6', 4)):
        shown = [line.split(' ')[0].split('=')[1] for line in entries(node, name)]
        equal([node.ask('get %s %s' % (name, key)).split(' ')[0] for key in shown], ['row'] * table_rows, 'each key as it is shown')
    others = (('v4', '::1'), ('v6', '10.0.0.1'), ('t1', '10.0.0.1'), ('st', '::1'), ('bin', '::'))
    answers(node, [('get %s %s' % row, 'WrongKey') for row in others] + [('get t9 10.0.0.1', 'NoTable'), ('track t9 ::1 add gpc0 1', 'NoTable')])
    for name, key in (('v4', '10.0.0.256'), ('v4', '10.0.0'), ('v4', '010.0.0.1'), ('v4', '10.0.0.1.'), ('v4', '0A0000'), ('v6', ':'),
                      ('v6', '1::2::3'), ('v6', '[::1]'), ('v6', '::1%1'), ('v6', '1:2:3:4:5:6:7'), ('v6', '10000::'), ('t1', '1.2.3')):
        equal(answer_to(node, 'get %s %s\n' % (name, key)), b'refused\n', 'the answer to a key %s' % key)


# Lines that can't be read.
UNREADABLE = ('', ' ', '\r', 'track', 'tracks t1 7 add gpc0 1', 'Track t1 7 add gpc0 1', 'track t1 7 add gpc0', 'track t1 7 add gpc0 1 2',
              'track t1 7 add gpc0 -1', 'track t1 7 add gpc0 01', 'track t1 7 add nothing 1', 'track t1 7 grow gpc0 1',
              'track t1 7 add gpc0 18446744073709551616', 'track r 7 rate gpc0_rate 4294967296', 'track t1  7 add gpc0 1',
              'track t1 7 add gpc0 1 ', ' track t1 7 add gpc0 1', 'track\tt1 7 add gpc0 1', 'track t1 7 add gpc0 1\r', 'track t1 x add gpc0 1',
              'track t1 4294967296 add gpc0 1', 'track t1 07 add gpc0 1', 'get t1', 'get t1 7 8', 'get', 'stop now', 'stop\r', 'stopp', 'STOP',
              'clear table t1', 'track st =a name \x7f', 'get st =\xe9', 'get st =\x00')
UNREADABLE_LISTS = ('show', 'show nothing', 'show peers more', 'show rows t1', 'show table t1 data.gpc0 gt 1')
# Good lines, which a page in a browser may have sent to the node as the body of its request.
GOOD = 'track t1 7 add gpc0 1\nstop\n'


def answer_to(node, *pieces):
    """Returns all that comes from the admin port for some pieces of bytes until the node closes the connection."""
    return node.admin().answer(*pieces)


def is_untouched(node, what):
    """Checks that a node runs, and that no row is there."""
    equal((node.child.poll(), node.ask('show rows'), node.events()), (None, [], 0), 'the status, the rows and the events after ' + what)


@check
def unreadable(trial):
    """a line that can't be read is refused, and its connection closed"""
    node = alone(trial)
    for line in UNREADABLE:
        equal(answer_to(node, line + '\n'), b'refused\n', 'the answer to %r' % line)
    for line in UNREADABLE_LISTS:
        equal(answer_to(node, line + '\n'), b'refused\n.\n', 'the answer to %r' % line)
    equal(answer_to(node, 'get t1 7\nshow table t9\nget t9 7\nnonsense\n'), b'none\nNoTable\n.\nNoTable\nrefused\n', 'the answers to lines before one')
    is_untouched(node, 'all of them')


@check
def behind_unreadable(trial):
    """nothing is obeyed behind a line that can't be read, neither what came with it nor what comes later"""
    node = alone(trial)
    for line, answer in [(line, b'refused\n') for line in UNREADABLE] + [(line, b'refused\n.\n') for line in UNREADABLE_LISTS]:
        equal(answer_to(node, line + '\n' + GOOD), answer, 'the answer to %r with more behind it' % line)
    for line in ('', 'nonsense', 'track t1 7 add gpc0', 'stop\r'):
        equal(answer_to(node, line + '\n', GOOD), b'refused\n', 'the answer to %r with more later' % line)
        equal(answer_to(node, 'get t1 7\n', line + '\n', GOOD, GOOD), b'none\nrefused\n', 'the answers to a request, %r and more later' % line)
    equal(answer_to(node, 'nonsense\n' + GOOD * 100_000), b'refused\n', 'the answer to a line with much behind it')
    equal(answer_to(node, 'x' * 40_000 + '\n' + GOOD), b'refused\n', 'the answer to a line that is too long')
    is_untouched(node, 'all of them')


def http(line, body, *heads):
    """Returns an HTTP request with this first line and this body."""
    return '\r\n'.join([line, 'Host: 127.0.0.1', 'Origin: http://example.org', *heads, '', body])


def with_body(line):
    """Returns HTTP requests with this first line, and with good lines as their body or in its place."""
    chunked = '%x\r\n%s\r\n0\r\n\r\n' % (len(GOOD), GOOD)
    return (http(line, GOOD, 'Content-Type: text/plain', 'Content-Length: %d' % len(GOOD)), http(line, '\n' + GOOD, 'Content-Length: 9'),
            http(line, chunked, 'Transfer-Encoding: chunked'), http(line, GOOD, 'Expect: 100-continue'), line + '\n' + GOOD + '\n' + GOOD,
            line + '\r\n\r\n' + GOOD, line + '\n\n' + GOOD)


def is_page(came, status, what, allow=None):
    """Checks that an answer is one of HTTP that closes its connection and says how long its body is, and returns that."""
    head, _, body = came.decode().partition('\r\n\r\n')
    first, *fields = head.split('\r\n')
    found = {name.lower(): value for name, value in (field.split(': ', 1) for field in fields)}
    matches(r'HTTP/1\.1 %d [A-Za-z ]+' % status, first, 'the status of ' + what)
    equal((found.get('connection'), found.get('content-length'), found.get('allow')), ('close', str(len(body)), allow), 'the head of ' + what)
    return body


# The pages of a node without peers, but for its metrics.
PAGES = (('/health', 'ok\n'), ('/ready', 'ok\n'), ('/', '/metrics\n/health\n/ready\n'))


@check
def other_methods(trial):
    """an HTTP request with another method than GET and HEAD is answered 405, and nothing behind its first line is obeyed"""
    node = alone(trial)
    methods = 'POST PUT DELETE PATCH OPTIONS TRACE get Get GET! head HEADS stop track show 7 \xff'.split(' ')
    for line in ['%s / HTTP/1.1' % method for method in methods] + [
            'OPTIONS * HTTP/1.1', 'CONNECT 127.0.0.1:9101 HTTP/1.1', 'POST http://127.0.0.1:9101/ HTTP/1.1', 'POST /metrics HTTP/1.0', 'POST / HTTP/2',
            'POST stop HTTP/', 'PRI * HTTP/2.0', 'show table HTTP/1.1', 'stop stop HTTP/stop', 'POST / HTTP/1.1\rstop']:
        for data in with_body(line):
            equal(is_page(answer_to(node, data), 405, repr(data), 'GET, HEAD'), '', 'the body of the answer to %r' % data)
    for line in ('POST / HTTP/1.1', 'OPTIONS * HTTP/1.1'):
        came = answer_to(node, line, '\r\n', 'Host: n\r\n', '\r\n', GOOD)
        equal(is_page(came, 405, line, 'GET, HEAD'), '', 'the body of the answer to %s in pieces' % line)
        is_page(answer_to(node, line + '\n' + GOOD * 100_000), 405, line + ' with much behind it', 'GET, HEAD')
    is_untouched(node, 'all of them')


@check
def gets_with_bodies(trial):
    """nothing behind the first line of a GET is obeyed, neither in its head nor in its body"""
    node = alone(trial)
    for line, status in (('GET /metrics HTTP/1.1', 200), ('GET stop HTTP/1.0', 404), ('GET http://n/metrics HTTP/1.1', 404),
                         ('GET \xff HTTP/1.1', 404), ('GET /metrics HTTP/2.0', 505), ('GET / HTTP/1.10', 505), ('GET /metrics HTTP/1.', 505),
                         ('GET / HTTP/', 505), ('GET /metrics HTTP/x', 505), ('GET / HTTP/1.1\rstop', 505), ('HEAD / HTTP/2', 505),
                         ('HEAD stop HTTP/1.1', 404)):
        for data in with_body(line):
            body = is_page(answer_to(node, data), status, repr(data))
            equal('\ndigbaro_uptime_seconds ' in body if status == 200 else body, status == 200 or '', 'the body of the answer to %r' % data)
    for path, page in PAGES:
        for data in with_body('GET %s HTTP/1.1' % path):
            equal(is_page(answer_to(node, data), 200, repr(data)), page, 'the body of the answer to %r' % data)
    data = 'GET /metrics HTTP/1.1\r\nHost: n\r\n' + GOOD
    is_page(answer_to(node, data, GOOD, GOOD + '\r\n' + GOOD, GOOD), 200, 'a head that comes in pieces')
    is_page(answer_to(node, data + 'X: ' + 'x' * 40_000 + '\n' + GOOD), 431, 'a line of a head that is too long')
    is_untouched(node, 'all of them')


@check
def no_requests_by_http(trial):
    """a line that is nearly that of an HTTP request is refused, and so is one that isn't the first of its connection"""
    node = alone(trial)
    for line in ('GET /metrics', 'GET', 'POST /', 'GET  HTTP/1.1', ' / HTTP/1.1', 'GET / ', 'GET /  HTTP/1.1', 'GET /a b HTTP/1.1', 'POST /a b HTTP/1.1',
                 'POST / HTTP/1.1 ', ' POST / HTTP/1.1', 'POST / http/1.1', 'GET /metrics XHTTP/1.1', 'GET\t/\tHTTP/1.1', '\r\nGET /metrics HTTP/1.1'):
        for data in with_body(line):
            equal(answer_to(node, data), b'refused\n', 'the answer to %r' % data)
    for line in ('GET /metrics HTTP/1.1', 'POST / HTTP/1.1', 'OPTIONS * HTTP/1.1', 'GET / HTTP/2.0'):
        for data in with_body(line):
            equal(answer_to(node, 'get t1 7\n' + data), b'none\nrefused\n', 'the answers to a request and %r' % data)
    equal(answer_to(node, 'get t1 7\nshow table HTTP/1.1\nnonsense\n'), b'none\nNoTable\n.\nrefused\n', 'the answers with a table HTTP/1.1')
    is_untouched(node, 'all of them')


@check
def browsers(trial):
    """a client of HTTP gets the answer to each of its requests, and changes nothing"""
    node = alone(trial)
    requests: tuple[tuple[str, str, Any, int], ...] = (
        ('POST', '/', '\n' + GOOD, 405), ('PUT', '/metrics', GOOD, 405), ('OPTIONS', '*', None, 405), ('HEAD', '/metrics', None, 200),
        ('POST', '/', (GOOD * 20_000).encode(), 405), ('POST', '/', iter([GOOD.encode()] * 1000), 405),
        ('GET', '/metrics', GOOD, 200), ('GET', '/stop', GOOD, 404))
    for method, path, body, status in requests:
        client = http_client.HTTPConnection(node.host, node.admin_port, timeout=5)
        with contextlib.suppress(ConnectionError):
            client.request(method, path, body)
        answer = client.getresponse()
        equal(answer.status, status, 'the status of %s %s' % (method, path))
        require(b'digbaro_uptime_seconds ' in answer.read() or method != 'GET' or status != 200, 'the metrics are there')
        client.close()
    is_untouched(node, 'all of them')


@check
def lingering(trial):
    """a client that neither closes its connection nor stops sending after the last answer keeps nobody else out"""
    node = alone(trial)
    others = [node.admin() for _ in range(31)]
    for admin in others:
        admin.send('nonsense\n')
        equal(admin.rest(), b'refused\n', 'the answer on each of 32 connections')
    ended = time.monotonic() + 2

    def send():
        with contextlib.suppress(OSError):
            while time.monotonic() < ended:
                others[0].send(GOOD)
                time.sleep(0.01)
    thread = threading.Thread(target=send, daemon=True)
    thread.start()
    time.sleep(1.6)
    equal([node.admin().ask('get t1 7') for _ in range(31)], ['none'] * 31, 'the answers on 31 further connections')
    thread.join()
    is_untouched(node, 'all of them')


@check
def gets(trial):
    """get gives a live row, with the table's id"""
    node = alone(trial)
    _, ends, _ = reply(node.ask('track t1 7 add gpc0 5'))
    equal(node.ask('get t1 7'), 'row 1 %s 7 5' % ends, 'the row')
    node.ask('track st =a name s1')
    equal(node.ask('get st =a'), 'row 4 - =a 0 s1', 'the row with a name')
    node.ask('track r 7 rate gpc0_rate 4')
    matches(r'row 6 - 7 [0-9]+/4/0', node.ask('get r 7'), 'the row with a rate')


@check
def headers(trial):
    """show table gives a header for each table in rising id, as HAProxy does, and the metrics say the same"""
    node = alone(trial, more=('size 2 500',))
    node.ask('track bin 00ff7f add bytes_in_cnt 9')
    wanted = (('t1', 'integer', 1000000, 0), ('v4', 'ip', 500, 0), ('v6', 'ipv6', 1000000, 0), ('st', 'string', 1000000, 0),
              ('bin', 'binary', 1000000, 1), ('r', 'integer', 1000000, 0))
    equal(node.ask('show table'), ['# table: %s, type: %s, size:%d, used:%d' % words for words in wanted], 'the headers')
    values = node.metrics()
    for name, kind, size, used in wanted:
        labels = '{name="%s",type="%s"}' % (name, kind)
        equal([float(values['haproxy_sticktable_%s%s' % (what, labels)]) for what in ('size', 'used')], [size, used], 'the metrics of ' + name)


def entries(node, name):
    """Returns the lines of a table's rows, each without its first word, which is an address."""
    lines = node.ask('show table ' + name)
    require(lines and lines[0].startswith('# table: %s, ' % name), 'the header of %s' % name, lines)
    for line in lines[1:]:
        matches(r'0x[0-9a-f]+: key=.*', line, 'a row of %s' % name)
    return [line.split(': ', 1)[1] for line in lines[1:]]


@check
def tables_shown(trial):
    """show table gives the rows of a table as HAProxy does"""
    node = alone(trial)
    node.ask('track t1 7 add gpc0 5')
    exp = int(matches(r'key=7 use=0 exp=([0-9]+) gpc0=5', entries(node, 't1')[0], 'a row')[1])
    between(28000, exp, 30000, 'its life')
    for table_name, key, shows in (('v4', '7F000001', 'key=127.0.0.1 use=0 exp=0 gpc0=1'),
                                   ('v6', '20010DB8' + '0' * 23 + '1', 'key=2001:db8::1 use=0 exp=0 gpc0=1'),
                                   ('st', '=a=b\\', 'key=a\\=b\\\\ use=0 exp=0 gpc0=1 server_key=-')):
        node.ask('track %s %s add gpc0 1' % (table_name, key))
        equal(entries(node, table_name), [shows], 'the row of ' + table_name)
    node.ask('track bin 00ff7f add bytes_in_cnt 9')
    equal(entries(node, 'bin'), ['key=00FF7F use=0 exp=0 bytes_in_cnt=9'], 'a binary key')
    node.ask('track st =a=b\\ name s1')
    equal(entries(node, 'st'), ['key=a\\=b\\\\ use=0 exp=0 gpc0=1 server_key=s1'], 'a name')
    node.ask('track r 7 rate gpc0_rate 4')
    equal(entries(node, 'r'), ['key=7 use=0 exp=0 gpc0_rate(10000)=4'], 'a rate')
    equal(len(node.ask('show table t1')), 2, 'lines of one table')


@check
def rows_shown(trial):
    """show rows gives all rows, in rising id of their tables and rising key"""
    node = alone(trial)
    for request in ('track st =b add gpc0 1', 'track v4 7F000001 add gpc0 1', 'track st =a name s1', 'track v4 0A000001 add gpc0 2',
                    'track bin 0001ff add bytes_in_cnt 3'):
        node.ask(request)
    equal(node.ask('show rows'), ['row 2 - 0A000001 2', 'row 2 - 7F000001 1', 'row 4 - =a 0 s1', 'row 4 - =b 1 -', 'row 5 - 0001FF 3'], 'the rows')


@check
def rows_in_parts(trial):
    """rows that are listed in several parts are all listed, each once, in rising key"""
    node = alone(trial, tables=(T1,))
    stored = 0
    for count in (1, 511, 512, 513, 1024, 1025, 5000, 9000):
        node.admins.send(''.join('track t1 %d add gpc0 1\n' % key for key in range(stored, count)))
        for _ in range(stored, count):
            require(node.admins.line().startswith('reply '), 'a track')
        stored = count
        equal(entries(node, 't1'), ['key=%d use=0 exp=0 gpc0=1' % key for key in range(count)], 'the table of %d rows' % count)
        equal(node.ask('show rows'), ['row 1 - %d 1' % key for key in range(count)], 'the rows')


@check
def peers_shown(trial):
    """show peers gives each peer in the order of the configuration, and its tables while there is a session"""
    node = node_of_b(trial, peers=('b', 'c'), tables=KINDS[:2])
    lines = node.ask('show peers')
    matches(r'node n moment=[0-9]+ up_to_date=no( .*)?', lines[0], 'the first line')
    pattern = (r'peer %s state=%s role=%s since=[0-9]+ sessions=%d heartbeats_sent=[0-9]+ heartbeats_received=[0-9]+ faults=0 last_end=-'
               r' version=%s( .*)?')
    equal(len(lines), 3, 'lines without a session')
    for name, line in zip('bc', lines[1:]):
        matches(pattern % (name, 'down', '-', 0, '-'), line, 'a peer without a session')
    connected(trial, node, 'b').gets(CONFIRMED, 3)
    wait(lambda: node.peer('b')['state'] == 'ready', 2, 'the peer is ready')
    lines = node.ask('show peers')
    matches(pattern % ('b', 'ready', 'accept', 1, r'2\.1'), lines[1], 'a peer with a session')
    for name, line in zip(('t1', 'v4'), lines[2:4]):
        matches(r'table b %s taught=0 acknowledged=0 received=- left=no( .*)?' % name, line, 'a table of it')
    matches(pattern % ('c', 'down', '-', 0, '-'), lines[4], 'the other peer')
    equal(len(lines), 5, 'lines')


@check
def peers_in_each_state(trial):
    """show peers says what a session does, how long it has stood, and how long ago the last one ended"""
    node = node_of_b(trial, tables=(T1,))
    time.sleep(1)
    between(900, int(node.peer('b')['since']), node.moment() - FIRST_MOMENT, 'ms since the node began')
    far = connected(trial, node)
    up_to_date(node)
    node.ask('track t1 7 add gpc0 1')
    far.gets_row('t1', 7, (1,))
    far.close()
    wait(lambda: node.peer('b')['state'] == 'down', 2, 'the session is over')
    time.sleep(0.5)
    between(400, int(node.peer('b')['since']), 1500, 'ms since the session ended')
    far = connected(trial, node, manners=Manners(acks='none'), behind=REQUEST)
    far.gets_row('t1', 7, (1,))
    wait(lambda: node.peer('b')['state'] == 'teaching', 1, 'the peer is taught', lambda: node.peer('b'))
    equal((node.shared('b', 't1')['taught'], node.shared('b', 't1')['acknowledged']), ('1', '0'), 'what was taught and acknowledged')
    far.send(acknowledgement(1, 1))
    far.gets(FINISHED, 2)
    wait(lambda: node.peer('b')['state'] == 'ready', 2, 'the peer is ready')
    time.sleep(0.5)
    since = int(node.peer('b')['since'])
    between(500, since, 1000 * (time.monotonic() - far.asked) + 1, 'ms since the session began')


@check
def pipelined(trial):
    """requests may be sent without waiting, and are answered in order, up to a line that can't be read"""
    node = alone(trial, tables=(T1,))
    count = 5000
    node.admins.send(''.join('track t1 %d add gpc0 1\n' % (place % 100) for place in range(count)) + 'show table\nget t1 7\nnonsense\n')
    for place in range(count):
        equal(node.admins.line(), 'reply %d - %d %d local' % (place + 1, place % 100, place // 100 + 1), 'an answer')
    equal((node.admins.lines(), node.admins.line(), node.admins.line()),
          (['# table: t1, type: integer, size:1000000, used:100'], 'row 1 - 7 %d' % (count // 100), 'refused'), 'the last answers')


@check
def request_in_pieces(trial):
    """a request may come byte by byte, and one that stays cut is none"""
    node = alone(trial)
    for byte in 'track t1 7 add gpc0 5\n':
        node.admins.send(byte)
        time.sleep(0.01)
    equal(reply(node.admins.line())[2], '7 5 local', 'the answer')
    other = node.admin()
    other.send('track t1 7 add gpc0 5')
    other.close()
    time.sleep(0.3)
    equal(node.ask('get t1 7').split(' ')[4], '5', 'the value after a request that was cut')


@check
def long_lines(trial):
    """a line of 32,768 bytes is read; a longer one is refused, and its connection closed"""
    node = alone(trial)
    equal(node.ask('get t9 =' + 'x' * (32768 - 8)), 'NoTable', 'the answer to a line of 32,768 bytes')
    equal(node.ask('get t1 7'), 'none', 'the answer behind it')
    for data in (b'get t9 =' + b'x' * (32769 - 8) + b'\n', b'x' * 32769 + b'\n', b'x' * 200_000):
        admin = node.admin()
        admin.send(b'get t1 7\n')
        equal(admin.line(), 'none', 'the answer to a line before it')
        try:
            admin.send(data)
        except OSError:
            pass
        equal(admin.rest(), b'refused\n', 'the answer to a line of %d bytes' % len(data))
    equal(node.ask('get t1 7'), 'none', 'the answer on another connection')


@check
def long_http_lines(trial):
    """an HTTP request is answered 431 if a line of it has more than 32,768 bytes, at the metrics port too; a long line that begins otherwise is refused"""
    port = trial.ports.next()
    node = alone(trial, more=('metrics ' + address(port),))
    long = b'x' * 32769
    for data, status in ((b'GET /' + long, 431), (b'HEAD /' + long + b' HTTP/1.1\r\n\r\n', 431), (b'GET / HTTP/1.1\r\nX: ' + long + b'\r\n\r\n', 431),
                         (b'GET /metrics HTTP/1.1\r\nHost: n\r\n' + long, 431), (b'GETS /' + long, None), (long, None)):
        for at in (node.admin_port, port):
            client = trial.closes(Admin(at))
            try:
                client.send(data)
            except OSError:
                pass
            if status:
                is_page(client.rest(), status, 'a long line behind %r' % data[:20])
            else:
                equal(client.rest(), b'refused\n', 'the answer to a long line behind %r' % data[:20])
    admin = node.admin()
    equal(admin.ask('get t1 7'), 'none', 'the answer to a line')
    admin.send(b'GET /' + long)
    equal(admin.rest(), b'refused\n', 'the answer to a long line that is not the first')


@check
def thirty_three(trial):
    """of 33 connections that are idle the one goes that has been idle longest, whatever part of a request it sent, and the others stay"""
    node = alone(trial)
    others = [node.admins] + [node.admin() for _ in range(31)]
    for admin in others[::-1]:
        equal(admin.ask('get t1 7'), 'none', 'the answer on each of 32 connections')
        time.sleep(0.01)
    for more in range(1, 4):
        oldest = others.pop()
        oldest.send('get t1')
        time.sleep(0.1)
        others.insert(0, node.admin())
        equal(others[0].ask('get t1 7'), 'none', 'the answer on %d more' % more)
        equal(oldest.rest(), b'', 'what the one gets that has been idle longest')
    for admin in others:
        equal(admin.ask('get t1 7'), 'none', 'the answer on each of the others')
    is_page(answer_to(node, 'GET /ready HTTP/1.1\r\n\r\n'), 200, 'a client of HTTP')
    is_untouched(node, 'all of them')


@check
def thirty_three_at_work(trial):
    """while requests of 32 connections are being answered, a further client is told so, one of HTTP by 503, and one is served later"""
    node = node_of_b(trial)
    others = [node.admins] + [node.admin() for _ in range(31)]
    for admin in others:
        admin.send('track t1 7 add gpc0 1\n')
    time.sleep(0.2)
    equal(answer_to(node, ''), b'busy\n', 'the answer to a client that says nothing')
    equal(answer_to(node, 'get t1 7\n'), b'busy\n', 'the answer to a request')
    equal(answer_to(node, 'GET /metrics HTT'), b'busy\n', 'the answer to a part of a line')
    for line in ('GET /metrics HTTP/1.1', 'HEAD / HTTP/1.0', 'POST / HTTP/2'):
        for behind in ('\r\nHost: n\r\n\r\n', '\n'):
            equal(is_page(answer_to(node, line + behind), 503, line), '', 'the body of the answer to ' + line)
    for admin in others:
        require(admin.line(8).startswith('reply '), 'the track is answered')
    equal(node.admin().ask('get t1 7').split(' ')[4], '32', 'the answer to one more once there is room')


@check
def idle_clients(trial):
    """a connection without a request for 60 s ends, whatever bytes come on it meanwhile"""
    node = alone(trial)
    silent, slow, half, asks = [node.admin() for _ in range(4)]
    half.send('GET /metrics HTTP/1.1\r\n')
    begun = time.monotonic()

    def sleep(until):
        time.sleep(max(0, begun + until - time.monotonic()))
    for second in range(1, 55):
        sleep(second)
        slow.send('g')
        half.send('X: %d\r\n' % second)
        if second == 10:
            equal(asks.ask('get t1 7'), 'none', 'an answer')
    sleep(58)
    equal([admin.is_over() for admin in (silent, slow, half, asks)], [False] * 4, 'connections that are over after 58 s')
    equal([admin.rest() for admin in (silent, slow, half)], [b''] * 3, 'what idle clients get')
    between(59.9, time.monotonic() - begun, 62, 'seconds until they are over')
    sleep(67)
    equal(asks.ask('get t1 7'), 'none', 'an answer to one that has asked meanwhile')
    is_untouched(node, 'all of them')


@check
def stops(trial):
    """stop ends a node with status 0 within 5 s, whoever is connected"""
    node, far = with_b(trial, peers=('b', 'c 127.0.0.1:9'))
    others = [node.admin() for _ in range(3)]
    others[0].send('track t1 7 add gpc0')
    speaks(trial, node, hello('n', 'b')[:9])
    between(0, node.stop(), 5, 'seconds until it has ended')
    far.ends(1)
    for admin in others:
        equal(admin.rest(), b'', 'what the other connections get')


@check
def stop_teaches_first(trial):
    """stop ends a session once its peer has acknowledged what was answered before"""
    node, far = with_b(trial, tables=(T1,))
    time.sleep(0.5)
    admin = node.admin()
    admin.send(''.join('track t1 %d add gpc0 1\n' % key for key in range(2000)))
    answered = sum(admin.line(5).startswith('reply') for _ in range(2000))
    equal(answered, 2000, 'answers')
    between(0, node.stop(), 2, 'seconds until it has ended')
    for key in (0, 1000, 1999):
        far.gets_row('t1', key, (1,), 1)


def tracked_until_it_stops(node, first, found):
    """Tracks one key after another, from `first` on, until the node closes the connection, and notes those that were answered."""
    client, sent, answers_ = node.admin(), 0, b''
    with contextlib.suppress(OSError):
        came = b'begins'
        while came:
            if answers_.count(b'\n') == sent:
                client.send(''.join('track t1 %d add gpc0 1\n' % key for key in range(first + sent, first + sent + 10)))
                sent += 10
            came = client.peer.recv(1 << 16)
            answers_ += came
    found.extend(range(first, first + answers_.count(b'local\n')))


@check
def stop_loses_nothing(trial):
    """each change that was answered is at the peers when the node has ended, also while clients go on tracking"""
    for _ in range(3):
        node, far = with_b(trial, tables=(T1,))
        found: list[int] = []
        threads = [threading.Thread(target=tracked_until_it_stops, args=(node, place * 1_000_000, found)) for place in range(8)]
        for thread in threads:
            thread.start()
        time.sleep(0.7)
        between(0, node.stop(), 5, 'seconds until it has ended')
        for thread in threads:
            thread.join()
        far.ends(2)
        require(len(found) > 100, 'changes that were answered:', len(found))
        rows = far.rows('t1')
        equal([key for key in found if key.to_bytes(4, 'big') not in rows], [], 'keys that were answered and are not at the peer')


@check
def stop_of_a_young_session(trial):
    """a session that has just begun teaches what was answered too before it ends"""
    node, _ = with_c(trial, tables=(T1,))
    admin = node.admin()
    far = connected(trial, node)
    wait(lambda: admin.ask('show peers')[1].startswith('peer b state=ready '), 1, 'the session begins', pause=0)
    equal(admin.ask('track t1 7 add gpc0 1'), 'reply 1 - 7 1 local', 'a track')
    between(0, node.stop(), 2, 'seconds until it has ended')
    far.gets_row('t1', 7, (1,), 1)


def behind(trial):
    """Returns a node and its peer, which has acknowledged a row of t1 and no further ones since: one is sent, and 598 wait for that."""
    node, far = with_b(trial, tables=(T1,))
    node.ask('track t1 0 add gpc0 1')
    wait(lambda: node.shared('b', 't1')['acknowledged'] == '1', 2, 'the first row is acknowledged')
    far.manners = Manners(acks='none')
    node.ask('track t1 1 add gpc0 1')
    far.gets_row('t1', 1, (1,), 2)
    tracked(node, 't1', range(2, 600))
    return node, far


@check
def stop_waits_for_the_slow(trial):
    """a peer that acknowledges 1.5 s after a stop gets what was answered before"""
    node, far = behind(trial)
    begun = time.monotonic()
    equal(node.ask('stop'), 'ok', 'the answer to stop')
    time.sleep(1.5)
    far.manners = Manners()
    far.send(acknowledgement(1, 2))
    equal(node.child.wait(PATIENCE), 0, 'the status')
    between(1.5, time.monotonic() - begun, 4, 'seconds until it has ended')
    equal(len(far.rows('t1')), 600, 'rows that came')
    equal(node.logged('unacknowledged'), [], 'lines about rows that came')


@check
def stop_waits_3_seconds(trial):
    """stop waits 3 s for a peer that doesn't acknowledge, and no longer, and the log names the peer and the table"""
    node, far = behind(trial)
    between(2.9, node.stop(), 5, 'seconds until it has ended')
    far.ends(1)
    lacking, = node.logged('unacknowledged', peer='b')
    equal((lacking.level, lacking.keys['table']), ('warn', 't1'), 'the line about the table')
    ended, = node.logged('ended', peer='b')
    require('before it knew that the peer had all rows' in ended.sentence, 'the end names the cause', ended.sentence)
    stopped, = node.logged('stopped')
    equal((stopped.level, stopped.keys['cut']), ('warn', '1'), 'the last line')


@check
def closes_while_the_node_stops(trial):
    """of a peer that closes its session while the node stops the log says so, and which table it may lack rows of, and counts no session as cut"""
    node, far = behind(trial)
    equal(node.ask('stop'), 'ok', 'the answer to stop')
    time.sleep(0.5)
    far.close()
    equal(node.child.wait(PATIENCE), 0, 'the status')
    equal([lacking.keys['table'] for lacking in node.logged('unacknowledged', peer='b')], ['t1'], 'the table')
    ended, = node.logged('ended', peer='b')
    require(ended.sentence.startswith('the far end has closed the session: b '), 'the end names the peer', ended.sentence)
    equal([stopped.keys['cut'] for stopped in node.logged('stopped')], ['0'], 'sessions that the node cut')


@check
def stopped_by_a_unit(trial):
    """the unit stops a node by its socket, and waits for its end"""
    perl = '/usr/bin/perl'
    if not os.path.exists(perl) or subprocess.run([perl, '-MIO::Socket::UNIX', '-e', '1'], stderr=subprocess.DEVNULL, check=False).returncode != 0:
        raise Skipped('there is no perl with IO::Socket::UNIX')
    path = Folder(trial).path()
    node, far = with_b(trial, tables=(T1,), more=('admin unix:' + path,))
    tracked(node, 't1', range(1000))
    with open(UNIT) as file:
        text = file.read().replace('\\\n', ' ')
    script, = re.findall(r"^ExecStop=-/usr/bin/perl -l -MIO::Socket::UNIX -e '([^']*)'$", text, re.M)
    require('/run/digbaro/admin.sock' in script, 'the socket in the unit:', script)
    words = [perl, '-l', '-MIO::Socket::UNIX', '-e', script.replace('/run/digbaro/admin.sock', path)]
    stopper = subprocess.Popen(words, env={**os.environ, 'MAINPID': str(node.child.pid)})
    equal(node.child.wait(5), 0, 'the status of the node')
    stopper.wait(3)
    far.gets_row('t1', 999, (1,), 1)


@check
def stops_beside_the_deaf(trial):
    """stop ends a node also while a client and a peer don't read"""
    node, _ = with_c(trial, tables=('table 1 long string 8192 0 gpc0',))
    long_rows(node, 512)
    speaks(trial, node, hello('n', 'b') + REQUEST, 2048)
    client = node.admin()
    client.send('show rows\n' * 20)
    time.sleep(1)
    between(0, node.stop(), 5, 'seconds until it has ended')


@check
def stops_beside_the_busy(trial):
    """stop ends a node also while a client goes on tracking, and that client's connection too"""
    node = alone(trial, tables=(T1,))
    client = node.admin()

    def track():
        with contextlib.suppress(OSError):
            while client.ask('track t1 7 add gpc0 1') is not None:
                time.sleep(0.01)
    thread = threading.Thread(target=track, daemon=True)
    thread.start()
    time.sleep(0.5)
    between(0, node.stop(), 5, 'seconds until it has ended')
    thread.join(1)
    require(not thread.is_alive(), 'the client is still served')


@check
def deaf_client(trial):
    """a client that doesn't read its answers delays nobody else, and takes little memory"""
    node, far = with_b(trial, tables=(T1,))
    tracked(node, 't1', range(500))
    before = node.memory()
    client = node.admin()
    client.send('show rows\n' * 2000)
    for key in range(5):
        time.sleep(0.3)
        equal(node.ask('track t1 %d add gpc0 1' % key), 'reply %d - %d 2 local' % (501 + key, key), 'a track beside it')
        far.gets_row('t1', key, (2,), 2)
    equal(client.line(), 'row 1 - 0 1', 'the first of its answers')
    between(0, node.memory() - before, 32, 'MiB more')


@check
def million_changes(trial):
    """a table takes more than a million changes, while a peer takes them in, and memory stays as it was after 100,000"""
    node, far = with_b(trial, tables=(T1,))
    count, at_once = 1_010_000, 5000
    begun = time.monotonic()
    for place in range(count // at_once):
        between(0, time.monotonic() - begun, 40, 'seconds after %d changes' % (place * at_once))
        if place * at_once == 100_000:
            before = node.memory()
        node.admins.send('track t1 7 add gpc0 1\n' * at_once)
        last = [node.admins.line(30) for _ in range(at_once)][-1]
    equal(last, 'reply %d - 7 %d local' % (count, count), 'the last answer')
    far.gets_row('t1', 7, (count,), 3)
    between(0, max(0, node.memory() - before), 16, 'MiB more than after 100,000 changes')


@check
def stops_while_it_learns(trial):
    """stop ends a node also before it is up to date, while a track waits"""
    node = node_of_b(trial)
    far = connected(trial, node, manners=Manners(answer=b''))
    waiting = node.admin()
    waiting.send('track t1 7 add gpc0 1\n')
    between(0, node.stop(), 5, 'seconds until it has ended')
    far.ends(1)


FAMILIES = ['haproxy_' + name for name in 'sticktable_size sticktable_used process_active_peers process_connected_peers'.split()] + [
    'digbaro_' + name for name in 'peer_up peer_last_error sessions_total rows_learned_total rows_taught_total bytes_sent_total bytes_received_total '
    'resyncs_total tables_left passed_over_total faults_total table_events_total table_next_number uptime_seconds up_to_date peer_lag_rows '
    'peer_lag_seconds rows_displaced_total hellos_refused_total tables_mismatched tables_unshared tables_undefined log_lines_dropped_total build_info'.split()] + [
    'process_' + name for name in 'resident_memory_bytes open_fds start_time_seconds cpu_seconds_total'.split()]


@check
def metrics(trial):
    """GET /metrics gives each family with HELP and TYPE, and closes"""
    node, far = with_b(trial, peers=('b', 'c'), tables=KINDS[:2])
    node.ask('track t1 7 add gpc0 1')
    far.gets_row('t1', 7, (1,))
    head, body = node.get('/metrics')
    lines = head.split('\r\n')
    matches(r'HTTP/1\.[01] 200 .*', lines[0], 'the status')
    found = {line.split(':', 1)[0].lower(): line.split(':', 1)[1].strip() for line in lines[1:]}
    equal(found['content-type'], 'text/plain; version=0.0.4', 'Content-Type')
    equal(found['content-length'], str(len(body)), 'Content-Length')
    families = re.findall(r'^# HELP ([a-z_]+) \S.*\n# TYPE ([a-z_]+) (counter|gauge)$', body, re.M)
    names = [family for family, _, _ in families]
    equal(names, [other for _, other, _ in families], 'the families of HELP and of TYPE')
    equal(sorted(names), sorted(FAMILIES), 'the families')
    for line in body.splitlines():
        require(line.startswith('# ') or re.fullmatch(r'[a-z_]+(\{([a-z]+="(\\.|[^"\\])*",?)+\})? [0-9.e+-]+', line), 'a line of the metrics', line)
    values = node.metrics()
    for name, value in (('haproxy_sticktable_size{name="t1",type="integer"}', 1000000), ('haproxy_sticktable_used{name="t1",type="integer"}', 1),
                        ('haproxy_sticktable_used{name="v4",type="ip"}', 0), ('haproxy_process_active_peers', 1),
                        ('haproxy_process_connected_peers', 1), ('digbaro_peer_up{peer="b"}', 1), ('digbaro_peer_up{peer="c"}', 0),
                        ('digbaro_table_next_number{name="t1"}', 2), ('digbaro_up_to_date', 1), ('digbaro_log_lines_dropped_total', 0),
                        ('digbaro_hellos_refused_total{status="504"}', 0), ('digbaro_tables_mismatched{peer="b"}', 0),
                        ('digbaro_peer_lag_rows{peer="c",name="v4"}', 0), ('digbaro_rows_displaced_total{name="t1"}', 0)):
        equal(float(values.get(name, -1)), value, name)
    between(0, float(values['digbaro_uptime_seconds']), node.moment() / 1000 - FIRST_MOMENT / 1000 + 1, 'the uptime')
    for name in ('digbaro_bytes_sent_total', 'digbaro_bytes_received_total'):
        wait(lambda: node.metric(name) >= 2, 2, 'bytes are counted', node.metrics)


def health(node, method='GET'):
    """Returns the status and the body of a node's health."""
    head, body = node.get('/health', method)
    return int(head.split(' ')[1]), body


@check
def health_of_a_node(trial):
    """GET /health is 200 once the node is up to date and has a session, and before that 503 with each reason"""
    equal(health(alone(trial)), (200, 'ok\n'), 'the health of a node without peers')
    node = node_of_b(trial, peers=('b', 'c'))
    both, behind, cut_off = ((503, text) for text in ('not up to date\nno peer is up\n', 'not up to date\n', 'no peer is up\n'))
    equal((health(node), health(node, 'HEAD')), (both, (503, '')), 'the health without a session')
    far = connected(trial, node, manners=Manners(answer=b''))
    wait(lambda: node.peer('b')['state'] == 'asking', 2, 'the peer is asked')
    equal(health(node), behind, 'the health while the node learns')
    far.send(FINISHED)
    up_to_date(node)
    equal((health(node), health(node, 'HEAD')), ((200, 'ok\n'), (200, '')), 'the health with a session')
    far.close()
    wait(lambda: node.peer('b')['state'] == 'down', 2, 'the session is over')
    equal(health(node), cut_off, 'the health once the session is over')


@check
def pages(trial):
    """the paths of the pages are those of GET /, HEAD has their heads alone, and a query is passed over"""
    node = alone(trial)
    heads = {}
    for path, page in PAGES + (('/metrics', None),):
        for query in ('', '?', '?x=1', '?a?b/c'):
            head, body = node.get(path + query)
            require(body == page or page is None and '\ndigbaro_uptime_seconds ' in body, 'the page at %s%s:' % (path, query), body)
            heads[path] = head
        same, none = node.get(path, 'HEAD')
        equal(none, '', 'the page for HEAD %s' % path)
        if page is not None:
            equal(same, heads[path], 'the head of %s' % path)
    require('Content-Type: text/plain; version=0.0.4' in heads['/metrics'], 'the type of the metrics', heads)
    equal(node.get('/')[1].split(), ['/metrics', '/health', '/ready'], 'the pages')


@check
def other_pages(trial):
    """any other path is not found"""
    node = alone(trial)
    for path in ('//', '/metrics/', '/metric', '/metrics%3Fx', '/x?/metrics', '?', '/health/', '/Ready', '/%s' % ('x' * 5000)):
        for method in ('GET', 'HEAD'):
            head, body = node.get(path, method)
            matches(r'HTTP/1\.[01] 404 .*', head.split('\r\n')[0], 'the status of %s' % path[:20])
            equal(body, '', 'its body')
    admin = node.admin()
    admin.send('GET /metrics HTTP/1.0\r\n\r\n')
    require(b' 200 ' in admin.rest().split(b'\r\n')[0], 'HTTP/1.0 is answered')
    equal(node.ask('get t1 7'), 'none', 'the answer behind it')


@check
def sections(trial):
    """a name on the wire that begins with / is shown with the section before it"""
    node, far = with_b(trial, tables=('table 1 /ints integer 4 0 gpc0', 'table 2 plain integer 4 0 gpc0'), more=('section mesh',))
    equal(node.ask('track mesh/ints 7 add gpc0 5'), 'reply 1 - 7 5 local', 'a track')
    far.gets_row('/ints', 7, (5,))
    equal(node.ask('show table'), ['# table: mesh/ints, type: integer, size:1000000, used:1', '# table: plain, type: integer, size:1000000, used:0'],
          'the headers')
    equal(entries(node, 'mesh/ints'), ['key=7 use=0 exp=0 gpc0=5'], 'the rows')
    answers(node, (('get /ints 7', 'row 1 - 7 5'), ('get plain 7', 'none'), ('get mesh/plain 7', 'NoTable'), ('get meshplain 7', 'NoTable'),
                   ('get other/ints 7', 'NoTable')))
    equal(node.ask('show table /ints'), node.ask('show table mesh/ints'), 'the table by its name on the wire')
    require('haproxy_sticktable_used{name="mesh/ints",type="integer"}' in node.metrics(), 'the name in the metrics', node.metrics())
    wait(lambda: node.shared('b', 'mesh/ints')['taught'] == '1', 2, 'the name in show peers', lambda: node.ask('show peers'))


@check
def odd_names(trial):
    """names with quotes, backslashes and braces make no lines of their own in the metrics"""
    node = Node(trial, peers=('b"{}\\',), tables=('table 1 t"1\\{}, integer 4 0 gpc0',)).start()
    values = node.metrics()
    require(r'digbaro_peer_up{peer="b\"{}\\"}' in values, 'the peer', values)
    require(r'haproxy_sticktable_used{name="t\"1\\{},",type="integer"}' in values, 'the table', values)


@check
def hostile_keys(trial):
    """keys and names that a peer sends can't make lines of their own"""
    node = node_of_b(trial, tables=('table 1 st string 33 0 server_key', 'table 2 t1 integer 4 0 gpc0'))
    far = connected(trial, node)
    there = table(7, 'st', 'string', types=('server_key',))
    bad = table(8, 'x\n# HELP y z\n', types=('gpc0',))
    far.send(definition(there) + update(there, 1, b'a\nrow 1', (), name=('write', 1, b'-'))
             + update(there, 2, b'b =\\', (), name=('write', 2, b'n\n.')) + definition(bad) + update(bad, 1, 7, (1,)))
    far.gets_ack(7, 2)
    equal(node.ask('show rows'), ['row 1 - ~610A726F772031 ~2D', 'row 1 - ~62203D5C ~6E0A2E'], 'the rows')
    shown = entries(node, 'st')
    equal(len(shown), 2, 'lines of the table')
    require(any(line.startswith('key=b\\ \\=\\\\ use=0 ') for line in shown), 'a space, = and a backslash are marked', shown)
    require(all(re.fullmatch('[ -~]*', line) for line in shown), 'all of it can be printed', shown)


@check
def ended_rows(trial):
    """a row that has ended isn't given any more, and goes soon; a table at rest has no events"""
    node = alone(trial, tables=('table 1 t1 integer 4 1000 gpc0', 'table 2 t2 integer 4 0 gpc0'))
    node.ask('track t1 7 add gpc0 5')
    node.ask('track t2 7 add gpc0 5')
    time.sleep(1.1)
    equal((node.ask('get t1 7'), entries(node, 't1')), ('none', []), 'the row after its end')
    wait(lambda: ' used:0' in node.ask('show table t1')[0], 2.5, 'the row goes')
    equal(node.ask('show rows'), ['row 2 - 7 5'], 'the rows')
    before = node.events()
    time.sleep(2.5)
    equal(node.events(), before, 'events of tables at rest')
    matches(r'reply 2 [0-9]+ 7 1 local', node.ask('track t1 7 add gpc0 1'), 'a row of the same key begins anew')


@check
def ended_rows_shown(trial):
    """a row that has ended, and that the node hasn't purged yet, is shown by show rows alone, and counts as used"""
    node = alone(trial, tables=('table 1 t1 integer 4 300 gpc0',))

    def is_stored():
        node.ask('track t1 7 add gpc0 1')
        time.sleep(0.302)
        row, rows, (header, *shown) = node.ask('get t1 7'), node.ask('show rows'), node.ask('show table t1')
        return (row, len(rows), shown) == ('none', 1, []) and header.endswith(' used:1')
    wait(is_stored, 8, 'a row that has ended is stored', lambda: (node.ask('show rows'), node.ask('show table t1')))


@check
def full_tables(trial):
    """a full table drops the row that ends first for a new one"""
    node = alone(trial, tables=('table 1 t1 integer 4 30000 gpc0',), more=('size 1 2',))
    for key in (1, 2, 3):
        node.ask('track t1 %d add gpc0 1' % key)
        time.sleep(0.01)
    equal([line.split(' ')[3] for line in node.ask('show rows')], ['2', '3'], 'the keys')


@check
def rates(trial):
    """a rate is shown by the counts of its periods and the moment"""
    node = alone(trial, tables=('table 1 r integer 4 0 gpc0_rate:1000',))
    node.ask('track r 7 rate gpc0_rate 1000')
    time.sleep(1.5)
    value = int(matches(r'key=7 use=0 exp=0 gpc0_rate\(1000\)=([0-9]+)', entries(node, 'r')[0], 'the row')[1])
    between(200, value, 500, 'the rate half a period after the one that counted')
    time.sleep(1)
    equal(entries(node, 'r'), ['key=7 use=0 exp=0 gpc0_rate(1000)=0'], 'the rate two periods later')


@check
def lone_events(trial):
    """a lone event is shown as a rate of 1 until two periods have passed, and get shows the counts as they are stored"""
    node = alone(trial, tables=('table 1 r integer 4 0 gpc0_rate:2000',))
    begun = time.monotonic()
    for key, count in ((7, 1), (8, 2)):
        matches(r'reply [12] - %d [0-9]+/%d/0 local' % (key, count), node.ask('track r %d rate gpc0_rate %d' % (key, count)), 'a rate')
    made = time.monotonic() - begun
    stored = [node.ask('get r 7'), node.ask('get r 8')]

    def shown(after, *values):
        time.sleep(max(0, begun + after - time.monotonic()))
        lines = entries(node, 'r')
        require(time.monotonic() - begun < after + 0.4 and made < 0.4, 'the check is in time')
        equal(lines, ['key=%d use=0 exp=0 gpc0_rate(2000)=%d' % row for row in zip((7, 8), values)], 'the rates after %g s' % after)
        equal([node.ask('get r 7'), node.ask('get r 8')], stored, 'what is stored')
    shown(1, 1, 2)
    shown(2.1 + made, 1, 1)
    shown(3.05 + made, 1, 0)
    shown(4.05 + made, 0, 0)


@check
def many_clients(trial):
    """clients that track the same key at once lose no count"""
    node = alone(trial, tables=(T1,))
    admins = [node.admin() for _ in range(8)]
    for admin in admins:
        admin.send('track t1 7 add gpc0 1\n' * 200)
    for admin in admins:
        for _ in range(200):
            require(admin.line().startswith('reply '), 'a track')
    equal(node.ask('get t1 7'), 'row 1 - 7 1600', 'the sum')
