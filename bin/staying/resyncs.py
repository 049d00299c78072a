"""Resyncs of a node that stays: whom it asks, whom it teaches, and when they end."""

import signal
import time

from harness.far import Far, Manners, connected
from harness.node import T1
from harness.trial import between, check, equal, require, wait
from harness.wire import CONFIRMED, FINISHED, PARTIAL, REQUEST, acknowledgement, definition, table, update
from staying.sessions import KEEPS_QUIET, asking, node_of_b, node_with_door, up_to_date, with_b

T2 = 'table 2 t2 integer 4 0 gpc0'
NAMES = ('table 1 st integer 4 0 server_key', 'table 2 su integer 4 0 server_key')


def tracked(node, name, keys):
    """Tracks keys of a table, each once."""
    answered(node, [b'track %s %d add gpc0 1' % (name.encode(), key) for key in keys], 1000)


def long_rows(node, count):
    """Makes rows with long keys, which differ at their begin, in the table `long`. They take more than the kernel keeps for a connection."""
    answered(node, [b'track long =%04d%s add gpc0 1' % (key, b'k' * 8100) for key in range(count)], 20)


def answered(node, requests, at_once):
    """Makes tracks, so many in one go, and reads their answers."""
    for first in range(0, len(requests), at_once):
        some = requests[first:first + at_once]
        node.admins.send(b'\n'.join(some) + b'\n')
        for request in some:
            line = node.admins.line()
            require((line or '').startswith('reply '), 'a track:', request, line)


def again(trial, node, far, manners=Manners()):
    """Returns a far side on a new connection, which begins with a node that is up to date."""
    up_to_date(node)
    far.close()
    return connected(trial, node, manners=manners)


def finishes(far, times=1, seconds=2, message=FINISHED):
    """Asks for a resync, and returns how long it took until its end."""
    begun = time.monotonic()
    far.send(REQUEST)
    return far.gets(message, seconds, times) - begun


@check
def resync(trial):
    """a far side that asks is taught all rows of all tables, told so, and may confirm it"""
    node, far = with_b(trial, tables=(T1, T2))
    tracked(node, 't1', range(5))
    tracked(node, 't2', range(3))
    far.close()
    far = connected(trial, node)
    finishes(far)
    equal((len(far.rows('t1')), len(far.rows('t2'))), (5, 3), 'the rows taught')
    require(not far.count(PARTIAL), 'the resync is partial')
    far.send(CONFIRMED)
    wait(lambda: node.peer('b')['state'] == 'ready', 2, 'the peer is ready')
    time.sleep(0.5)
    equal((len(far.updates()), far.count(FINISHED)), (8, 1), 'updates and ends')
    node.shows('digbaro_resyncs_total{peer="b",role="teacher",end="finished"}', 1)
    node.shows('digbaro_resyncs_total{peer="b",role="learner",end="finished"}', 1)


@check
def resync_of_nothing(trial):
    """a resync without rows ends at once"""
    node, far = with_b(trial)
    far.close()
    far = connected(trial, node)
    between(0, finishes(far), 1, 'seconds until its end')
    equal(far.updates(), [], 'updates')


@check
def long_resync(trial):
    """a resync of many rows goes in lessons of 512 at most, each acknowledged before the next"""
    node, far = with_b(trial)
    tracked(node, 't1', range(1200))
    far.close()
    far = connected(trial, node, manners=Manners(acks='none'))
    far.send(REQUEST)
    for count in (512, 1024, 1200):
        wait(lambda: len(far.updates()) >= count, 2, '%d updates' % count, far.shown)
        time.sleep(0.3)
        equal((len(far.updates()), far.count(FINISHED)), (count, 0), 'updates before their acknowledgement, and ends')
        far.send(acknowledgement(1, far.updates()[-1].number))
    far.gets(FINISHED, 2)
    equal(len(far.rows('t1')), 1200, 'rows')


@check
def taught_back(trial):
    """a resync teaches what stood when it began, so it ends, also if the far side teaches each row back"""
    node, far = with_b(trial)
    tracked(node, 't1', range(100))
    far.close()
    far = connected(trial, node, manners=Manners(acks='none'), behind=REQUEST)
    wait(lambda: len(far.updates()) == 100, 2, 'the rows', far.shown)
    there = table(77, 't1')
    far.send(definition(there) + b''.join(update(there, place + 1, one.key, one.values) for place, one in enumerate(far.updates())))
    far.gets_ack(77, 100, 2)
    far.send(acknowledgement(1, far.updates()[-1].number))
    far.gets(FINISHED, 2)
    time.sleep(0.5)
    equal((len(far.updates()), node.events() >= 200), (100, True), 'updates, and whether the rows were taught back')


@check
def partial_resync(trial):
    """a node that isn't up to date ends a resync as partial"""
    node, far = asking(trial)
    between(0, finishes(far, message=PARTIAL), 1, 'seconds until its end')
    equal(far.count(FINISHED), 0, 'finished resyncs')
    node.shows('digbaro_resyncs_total{peer="b",role="teacher",end="partial"}', 1)


@check
def broken_resync(trial):
    """a resync is broken if the session ends before it, and the next one teaches all rows"""
    node, far = with_b(trial)
    node.ask('track t1 7 add gpc0 1')
    far = again(trial, node, far, Manners(acks='none'))
    far.send(REQUEST)
    far.gets_row('t1', 7, (1,))
    far = again(trial, node, far)
    node.shows('digbaro_resyncs_total{peer="b",role="teacher",end="broken"}', 1)
    finishes(far)
    equal(far.rows('t1'), {b'\0\0\0\7': ((1,), None)}, 'the rows of the next one')


@check
def finished_once_up_to_date(trial):
    """a session that began before its node was up to date ends a resync as finished once it is"""
    node, far = asking(trial)
    far.send(FINISHED)
    up_to_date(node)
    finishes(far)
    equal(far.count(PARTIAL), 0, 'partial resyncs')


@check
def asks_the_next(trial):
    """a node asks one peer at a time, until one ends its resync as finished"""
    node = node_of_b(trial, peers=('b', 'c', 'd'))
    fars = [connected(trial, node, name, KEEPS_QUIET) for name in 'bcd']
    asked: list[Far] = []
    for answer in (PARTIAL, PARTIAL, FINISHED):
        wait(lambda: sum(far.count(REQUEST) for far in fars) > len(asked), 2, 'the node asks')
        time.sleep(0.3)
        equal(sum(far.count(REQUEST) for far in fars), len(asked) + 1, 'requests at once')
        equal(node.head()['up_to_date'], 'no', 'up to date')
        asked.append(next(far for far in fars if far not in asked and far.count(REQUEST)))
        asked[-1].send(answer)
        asked[-1].gets(CONFIRMED, 2)
    up_to_date(node)
    equal([far.count(REQUEST) for far in fars], [1, 1, 1], 'requests')
    equal(sum(node.metric('digbaro_resyncs_total{peer="%s",role="learner",end="partial"}' % name) for name in 'bcd'), 2, 'partial resyncs')


@check
def asks_another_if_one_goes(trial):
    """a node whose teacher goes away asks the next peer"""
    node, first = asking(trial, peers=('b', 'c'))
    second = connected(trial, node, 'c')
    time.sleep(0.2)
    equal(second.count(REQUEST), 0, 'requests while another peer is asked')
    first.close()
    second.gets(CONFIRMED, 3)
    up_to_date(node)
    node.shows('digbaro_resyncs_total{peer="b",role="learner",end="broken"}', 1)


def asked_by(far, node, times, seconds):
    """Waits until a node has asked a far side so many times, and returns how long after its start that was."""
    return far.gets(REQUEST, seconds, times) - node.started


@check
def nobody_to_ask(trial):
    """a node that finds nobody to ask tracks 5 s after its start, isn't up to date, and asks the first peer that comes"""
    node = node_of_b(trial)
    equal(node.ask('track t1 7 add gpc0 1'), 'reply 1 - 7 1 local', 'a track')
    between(4.9, time.monotonic() - node.started, 6.5, 'seconds until it is made')
    equal(node.head()['up_to_date'], 'no', 'up to date')
    far = connected(trial, node)
    far.gets(CONFIRMED, 2)
    up_to_date(node)
    equal(far.count(REQUEST), 1, 'requests')


@check
def asks_past_the_mute(trial):
    """a peer that is asked and is mute for 5 s is named in the log, and the next one is asked, also if that is mute too"""
    node = node_of_b(trial, peers=('b', 'c', 'd'))
    mute = [connected(trial, node, 'b', KEEPS_QUIET)]
    first = mute[0].gets(REQUEST, 2)
    mute.append(connected(trial, node, 'c', KEEPS_QUIET))
    second = mute[1].gets(REQUEST, 7)
    between(4.9, second - first, 6, 'seconds until the second is asked')
    able = connected(trial, node, 'd')
    between(4.9, able.gets(REQUEST, 7) - second, 6, 'seconds until the third is asked')
    up_to_date(node)
    time.sleep(1)
    equal([far.count(REQUEST) for far in mute + [able]], [1, 1, 1], 'requests')
    for far in mute + [able]:
        far.stands()
    equal([[len(node.logged(event, peer=name)) for name in 'bcd'] for event in ('asked', 'unanswered')], [[1, 1, 1], [1, 1, 0]],
          'lines of peers that were asked, and of those that did not answer')


@check
def late_answer(trial):
    """rows and the end of a resync that come after 5 s count all the same"""
    node = node_of_b(trial)
    far = connected(trial, node, manners=KEEPS_QUIET)
    begun = far.gets(REQUEST, 2)
    node.logs('unanswered', seconds=7, peer='b', why='mute')
    between(4.9, time.monotonic() - begun, 6.5, 'seconds until it does')
    equal(node.head()['up_to_date'], 'no', 'up to date')
    there = table(9, 't1')
    far.send(definition(there) + update(there, 1, 7, (50,)))
    far.gets_ack(9, 1, 2)
    equal(node.ask('get t1 7'), 'row 1 - 7 50', 'the row')
    equal(node.head()['up_to_date'], 'no', 'up to date before the end')
    far.send(FINISHED)
    far.gets(CONFIRMED, 2)
    up_to_date(node)
    node.shows('digbaro_resyncs_total{peer="b",role="learner",end="finished"}', 1)


@check
def rows_keep_the_wait(trial):
    """a peer that brings a row every 3 s is waited for, and no other is asked"""
    node, far = asking(trial, peers=('b', 'c'))
    other = connected(trial, node, 'c')
    there = table(9, 't1')
    far.send(definition(there))
    for number in range(1, 5):
        time.sleep(3)
        far.send(update(there, number, number, (1,)))
    equal((other.count(REQUEST), node.logged('unanswered')), (0, []), 'requests to the other peer, and what the log says of those given up')
    far.send(FINISHED)
    up_to_date(node)
    equal(other.count(REQUEST), 0, 'requests to the other peer')


@check
def rows_of_other_tables(trial):
    """a peer that was asked and teaches nothing but a table that the node lacks, for 12 s, is waited for, isn't silent, and no other is asked"""
    node, far = asking(trial, manners=Manners(beats=False, answer=b''), peers=('b', 'c'))
    other = connected(trial, node, 'c')
    there = table(9, 'lacking')
    far.send(definition(there))
    for number in range(1, 13):
        time.sleep(1)
        far.send(update(there, number, number, (1,)))
    far.stands()
    equal((far.count(REQUEST), other.count(REQUEST), node.logged('unanswered')), (1, 0, []), 'requests, and what the log says of those given up')
    far.send(definition(table(10, 't1')) + FINISHED)
    up_to_date(node)
    equal(other.count(REQUEST), 0, 'requests to the other peer')


@check
def mute_but_acknowledging(trial):
    """a peer that was asked, and acknowledges what it is taught but teaches nothing, has 5 s all the same"""
    node = node_of_b(trial, peers=('b', 'c'), tables=(T1,))
    equal(node.ask('track t1 0 add gpc0 1'), 'reply 1 - 0 1 local', 'a track')
    far = connected(trial, node, manners=KEEPS_QUIET)
    begun = far.gets(REQUEST, 2)
    other = connected(trial, node, 'c')
    for key in range(1, 10):
        time.sleep(0.4)
        node.ask('track t1 %d add gpc0 1' % key)
        far.gets_row('t1', key, (1,), 2)
    wait(lambda: node.shared('b', 't1')['acknowledged'] == '10', 1, 'all is acknowledged', lambda: node.shared('b', 't1'))
    node.logs('unanswered', seconds=4, peer='b')
    between(4.9, other.gets(REQUEST, 2) - begun, 6.5, 'seconds until the other peer is asked')


@check
def asks_again_after_a_minute(trial):
    """peers that didn't answer finished are asked again after a minute, until one does"""
    node = node_of_b(trial, peers=('b', 'c'))
    mute = connected(trial, node, 'b', KEEPS_QUIET)
    first = asked_by(mute, node, 1, 2)
    partial = connected(trial, node, 'c', Manners(answer=PARTIAL))
    other = asked_by(partial, node, 1, 7)
    between(59.9, asked_by(mute, node, 2, 70) - first, 64, 'seconds until the mute one is asked again')
    equal(node.head()['up_to_date'], 'no', 'up to date')
    partial.manners = Manners()
    between(59.9, asked_by(partial, node, 2, 12) - other, 70, 'seconds until the other one is asked again')
    up_to_date(node)
    equal((mute.count(REQUEST), partial.count(REQUEST)), (2, 2), 'requests')


@check
def held_up_while_it_waits(trial):
    """a node that was held up while it waited for a peer says so, and the peer has its 5 s anew"""
    node, far = asking(trial, peers=('b', 'c'))
    connected(trial, node, 'c', KEEPS_QUIET)
    node.child.send_signal(signal.SIGSTOP)
    time.sleep(7)
    node.child.send_signal(signal.SIGCONT)
    said = node.logs('held-up')
    equal({each.level for each in said}, {'warn'}, 'levels')
    between(6_500, max(int(each.keys['ms']) for each in said), 12_000, 'ms for which it stood still')
    time.sleep(1)
    far.send(FINISHED)
    up_to_date(node)
    equal(node.logged('unanswered'), [], 'lines of peers that did not answer')


@check
def all_partial(trial):
    """a node of which all peers answer partial is up to date at once, and one of which some are away 5 s after its start"""
    node = node_of_b(trial, peers=('b', 'c'))
    far = connected(trial, node, 'b', Manners(answer=PARTIAL))
    far.gets(CONFIRMED, 2)
    equal(node.head()['up_to_date'], 'no', 'up to date while c is away')
    wait(node.is_up_to_date, 7, 'the node is up to date')
    between(4.9, time.monotonic() - node.started, 6.5, 'seconds until it is')
    node = node_of_b(trial, peers=('b', 'c'))
    for name in 'bc':
        connected(trial, node, name, Manners(answer=PARTIAL)).gets(CONFIRMED, 2)
    wait(node.is_up_to_date, 2, 'the node is up to date', node.said)
    said, = node.logs('up-to-date')
    equal(said.keys, {}, 'by whom')


def teaches(far, *tables):
    """Answers a request for a resync: defines tables, and says that all rows are taught."""
    far.send(b''.join(definition(of) for of in tables) + FINISHED)
    far.gets(CONFIRMED, 2)


@check
def tables_that_differ(trial):
    """the resync of a peer that defines a table otherwise is incomplete: the node isn't up to date by it, and asks the next peer"""
    node = node_of_b(trial, peers=('b', 'c'), tables=(T1, T2))
    first = connected(trial, node, 'b', KEEPS_QUIET)
    first.gets(REQUEST, 2)
    teaches(first, table(11, 't1'), table(12, 't2', types=('gpc0', 'gpc1')))
    node.logs('resync-ended', peer='b', end='incomplete')
    equal(node.head()['up_to_date'], 'no', 'up to date')
    second = connected(trial, node, 'c', KEEPS_QUIET)
    second.gets(REQUEST, 2)
    teaches(second, table(21, 't1'), table(22, 't2'))
    up_to_date(node)
    said, = node.logs('up-to-date')
    equal(said.keys, {'peer': 'c'}, 'by whom')
    first.close()
    first = connected(trial, node, 'b')
    time.sleep(0.7)
    equal((first.count(REQUEST), second.count(REQUEST)), (0, 1), 'requests')


@check
def asks_on_for_lacking_tables(trial):
    """a node whose only peer lacks a table is up to date after 5 s, and asks whoever comes first then, and that peer once it defines all"""
    node = node_of_b(trial, peers=('b', 'c', 'd'), tables=(T1, T2))
    first = connected(trial, node, 'b', KEEPS_QUIET)
    first.gets(REQUEST, 2)
    teaches(first, table(11, 't1'))
    wait(node.is_up_to_date, 7, 'the node is up to date')
    between(4.9, time.monotonic() - node.started, 6.5, 'seconds until it is')
    second = connected(trial, node, 'c', KEEPS_QUIET)
    second.gets(REQUEST, 2)
    teaches(second, table(21, 't1'), table(22, 't2', 'string', length=33))
    equal(first.count(REQUEST), 1, 'requests to the first peer on one session')
    # The same process may have been cut off for long: what it would teach is old.
    first.close()
    first = connected(trial, node, 'b', KEEPS_QUIET)
    there = (table(31, 't1'), table(32, 't2'))
    first.send(definition(there[0]) + update(there[0], 1, 7, (50,)))
    first.gets_ack(31, 1, 2)
    time.sleep(3.5)
    equal(first.count(REQUEST), 0, 'requests to the same process')
    first.send(definition(there[1]) + update(there[1], 1, 7, (60,)))
    first.gets(REQUEST, 4)
    teaches(first, *there)
    node.logs('resync-ended', peer='b', end='finished')
    third = connected(trial, node, 'd')
    time.sleep(0.7)
    equal((third.count(REQUEST), second.count(REQUEST)), (0, 1), 'requests once all rows are taught')


@check
def asks_another_process(trial):
    """a node that lacks rows asks a peer again on its next session if its hello says another pid"""
    node = node_of_b(trial, tables=(T1, T2))
    far = connected(trial, node, 'b', KEEPS_QUIET)
    far.gets(REQUEST, 2)
    teaches(far, table(11, 't1'))
    up_to_date(node)
    for pid, requests in ((1, 0), (2, 1)):
        far.close()
        far = connected(trial, node, 'b', KEEPS_QUIET, pid=pid)
        far.send(definition(table(11, 't1')))
        time.sleep(0.7)
        equal(far.count(REQUEST), requests, 'requests to a process with the pid %d' % pid)
    teaches(far, table(31, 't1'), table(32, 't2'))
    node.logs('resync-ended', peer='b', end='finished')


@check
def asks_another_process_after_a_partial_end(trial):
    """a node whose peer lacks a table and answered partially asks another process of it"""
    node = node_of_b(trial, tables=(T1, T2))
    far = connected(trial, node, 'b', KEEPS_QUIET)
    far.gets(REQUEST, 2)
    far.send(definition(table(11, 't1')) + PARTIAL)
    far.gets(CONFIRMED, 2)
    up_to_date(node)
    for pid, requests in ((1, 0), (2, 1)):
        far.close()
        far = connected(trial, node, 'b', KEEPS_QUIET, pid=pid)
        far.send(definition(table(11, 't1')))
        time.sleep(0.7)
        equal(far.count(REQUEST), requests, 'requests to a process with the pid %d' % pid)


@check
def asks_who_is_back_soon(trial):
    """a node that lacks rows asks a peer that it connects to again once that is back, on each session until it has answered"""
    door, node = node_with_door(trial, KEEPS_QUIET, tables=(T1, T2))
    far = door.far(0)
    far.gets(REQUEST, 2)
    teaches(far, table(11, 't1'))
    wait(node.is_up_to_date, 7, 'the node is up to date')
    far.close()
    far = door.far(1, 6)
    far.gets(REQUEST, 2)
    far.close()
    node.logs('resync-ended', peer='b', end='broken')
    far = door.far(2, 6)
    far.gets(REQUEST, 2)
    teaches(far, table(11, 't1'), table(12, 't2'))
    node.logs('resync-ended', peer='b', end='finished')
    far.close()
    far = door.far(3, 6)
    time.sleep(0.7)
    equal(far.count(REQUEST), 0, 'requests once all rows are taught')


@check
def asks_another_process_until_it_answers(trial):
    """a node that lacks rows asks a peer that is another process on each session until that has answered, also if its session broke"""
    node = node_of_b(trial, tables=(T1, T2))
    far = connected(trial, node, 'b', KEEPS_QUIET)
    far.gets(REQUEST, 2)
    teaches(far, table(11, 't1'))
    up_to_date(node)
    for _ in range(2):
        far.close()
        far = connected(trial, node, 'b', KEEPS_QUIET, pid=2)
        far.gets(REQUEST, 2)
    teaches(far, table(11, 't1'))
    node.logs('resync-ended', peer='b', end='incomplete')
    far.close()
    far = connected(trial, node, 'b', KEEPS_QUIET, pid=2)
    time.sleep(0.7)
    equal(far.count(REQUEST), 0, 'requests to a process that answered')


@check
def asks_nobody_once_all_were_partial(trial):
    """a node that is up to date since all answered partially asks nobody that answered, neither one that is back soon nor another process"""
    door, node = node_with_door(trial, Manners(answer=PARTIAL))
    far = door.far(0)
    far.gets(CONFIRMED, 2)
    wait(node.is_up_to_date, 2, 'the node is up to date')
    far.close()
    far = door.far(1, 6)
    time.sleep(0.7)
    equal(far.count(REQUEST), 0, 'requests to a peer that is back soon')
    for pid in (1, 2):
        far.close()
        far = connected(trial, node, pid=pid)
        time.sleep(0.7)
        equal(far.count(REQUEST), 0, 'requests to a process with the pid %d' % pid)


@check
def asks_who_comes_late(trial):
    """a node that is up to date since all with a session answered partially asks a peer that comes only then, once"""
    node = node_of_b(trial, peers=('b', 'c'))
    connected(trial, node, 'b', Manners(answer=PARTIAL)).gets(CONFIRMED, 2)
    wait(node.is_up_to_date, 7, 'the node is up to date')
    late = connected(trial, node, 'c', KEEPS_QUIET)
    late.gets(REQUEST, 2)
    there = table(21, 't1')
    late.send(definition(there) + update(there, 1, 7, (50,)) + FINISHED)
    late.gets(CONFIRMED, 2)
    equal(node.ask('get t1 7'), 'row 1 - 7 50', 'the row')
    late.close()
    late = connected(trial, node, 'c', pid=2)
    time.sleep(0.7)
    equal(late.count(REQUEST), 0, 'requests once all rows are taught')


@check
def end_of_a_session_that_differs(trial):
    """definitions that differ, rows, the end of a resync and the end of the connection in one piece are an incomplete resync all the same"""
    node = node_of_b(trial, peers=('b', 'c'), tables=(T1, T2))
    far = connected(trial, node, 'b', KEEPS_QUIET)
    far.gets(REQUEST, 2)
    there = table(11, 't1')
    far.send(definition(there) + update(there, 1, 7, (50,)) + FINISHED + b'\1\0')
    node.logs('resync-ended', peer='b', end='incomplete')
    equal(node.head()['up_to_date'], 'no', 'up to date')
    equal(node.ask('get t1 7'), 'row 1 - 7 50', 'the row')
    connected(trial, node, 'c').gets(REQUEST, 2)


@check
def asked_on_the_next_session(trial):
    """a peer whose session breaks while it is asked is asked again on its next one"""
    node = node_of_b(trial)
    for _ in range(2):
        far = connected(trial, node, manners=KEEPS_QUIET)
        far.gets(REQUEST, 2)
        far.close()
        wait(lambda: node.peer('b')['state'] == 'down', 2, 'the session is over')
    connected(trial, node).gets(CONFIRMED, 2)
    up_to_date(node)
    node.shows('digbaro_resyncs_total{peer="b",role="learner",end="broken"}', 2)


@check
def asks_nobody_at_a_reconnection(trial):
    """a node that is up to date asks nobody any more"""
    node, far = with_b(trial, peers=('b', 'c'))
    far.close()
    fars = [connected(trial, node), connected(trial, node, 'c')]
    time.sleep(0.7)
    equal([far.count(REQUEST) for far in fars], [0, 0], 'requests')


@check
def acknowledges_no_number_again(trial):
    """a resync ends at once at a far side that, as HAProxy does, never acknowledges a number of a table again"""
    node = node_of_b(trial, tables=(T1, T2))
    far = again(trial, node, connected(trial, node), Manners(acks='new'))
    tracked(node, 't1', range(5))
    tracked(node, 't2', range(3))
    wait(lambda: len(far.updates()) == 8, 2, 'the rows are pushed')
    time.sleep(1.1)
    for times in (1, 2):
        between(0, finishes(far, times), 1.4, 'seconds until its end')
        equal(len(far.updates()), 8 + 8 * times, 'updates')
    equal(far.count(PARTIAL), 0, 'partial resyncs')
    node.ask('track t1 9 add gpc0 9')
    far.gets_row('t1', 9, (9,), 1)


@check
def one_table_never_acknowledged(trial):
    """a table of which nothing is acknowledged for 2 s is left: the resync ends as partial, and the other table is taught on"""
    node, far = with_b(trial, tables=(T1, T2))
    tracked(node, 't1', range(5))
    tracked(node, 't2', range(3))
    far.close()
    far = connected(trial, node, manners=Manners(passed=('t2',)))
    between(1.9, finishes(far, seconds=5, message=PARTIAL), 3.2, 'seconds until the end of the resync')
    equal((len(far.rows('t1')), far.count(FINISHED)), (5, 0), 'rows, and finished resyncs')
    equal([node.shared('b', name)['left'] for name in ('t1', 't2')], ['no', 'yes'], 'tables left')
    node.shows('digbaro_tables_left', 1)
    taught = len(far.updates('t2'))
    node.ask('track t2 9 add gpc0 9')
    node.ask('track t1 9 add gpc0 9')
    far.gets_row('t1', 9, (9,), 1)
    far.send(REQUEST)
    far.gets(PARTIAL, 3, 2)
    equal(len(far.updates('t2')), taught, 'updates of the table that was left')
    far.stands()


@check
def pushed_and_never_acknowledged(trial):
    """a table that is pushed and of which nothing is acknowledged is left too"""
    node, far = with_b(trial, manners=Manners(passed=('t2',)), tables=(T1, T2))
    time.sleep(0.4)
    node.ask('track t2 1 add gpc0 1')
    far.gets_row('t2', 1, (1,), 1)
    begun = time.monotonic()
    wait(lambda: node.shared('b', 't2')['left'] == 'yes', 4, 'the table is left')
    between(1.5, time.monotonic() - begun, 3.2, 'seconds until it is left')
    node.ask('track t1 1 add gpc0 1')
    far.gets_row('t1', 1, (1,), 1)
    far.close()
    far = connected(trial, node)
    far.gets_row('t2', 1, (1,), 2)
    equal(node.shared('b', 't2')['left'], 'no', 'left on the next connection')


def taught_names(trial):
    """Returns a far side that is taught two tables with the same name of a server, and has got the first lesson."""
    node, far = with_b(trial, tables=NAMES)
    for name in ('st', 'su'):
        node.ask('track %s 1 name s1' % name)
    far.close()
    far = connected(trial, node, manners=Manners(acks='none'))
    far.send(REQUEST)
    wait(far.updates, 2, 'the first lesson')
    return far


@check
def names_alone(trial):
    """the first lesson of a table with server names goes alone, until it is acknowledged"""
    far = taught_names(trial)
    time.sleep(0.5)
    equal(len(far.updates()), 1, 'updates before an acknowledgement')
    first = far.updates()[0]
    far.send(acknowledgement(first.id, first.number))
    wait(lambda: len(far.updates()) == 2, 1, 'the second lesson', far.shown)
    second = far.updates()[1]
    equal((first.name, second.name, first.id != second.id), (b's1', b's1', True), 'names, and tables apart')
    far.send(acknowledgement(second.id, second.number))
    far.gets(FINISHED, 2)


@check
def names_forgotten(trial):
    """once a table with server names is left, no later lesson reads the names that its own wrote"""
    far = taught_names(trial)
    far.manners = Manners(passed=(far.updates()[0].table.name.decode(),))
    wait(lambda: len(far.updates()) == 2, 4, 'the second lesson', far.shown)
    far.gets(PARTIAL, 2)
    written = [one.data for one in far.came if one.kind[0] == 10 and one.kind[1] in (128, 133)]
    require(all(b's1' in data for data in written) and len(written) == 2, 'both lessons write the name', written)


@check
def requests_without_end(trial):
    """a far side that asks without end gets one resync a second at most"""
    node = node_of_b(trial)
    far = again(trial, node, connected(trial, node), Manners(acks='new'))
    tracked(node, 't1', range(5))
    begun = time.monotonic()
    while time.monotonic() < begun + 4:
        far.send(REQUEST * 50)
        time.sleep(0.01)
    ends = [moment for moment in far.controls(FINISHED)]
    between(3, len(ends), 5, 'resyncs in 4 s')
    require(all(later - before > 0.8 for before, later in zip(ends, ends[1:])), 'resyncs a second apart:', ends)
    far.stands()
    node.ask('track t1 9 add gpc0 9')
    far.gets_row('t1', 9, (9,), 2)


@check
def taught_by_a_far_side(trial):
    """a node takes the rows of a resync in, with their lives, names and rates"""
    tables = ('table 1 /ints integer 4 60000 gpc0 gpc0_rate:10000', 'table 2 st string 33 0 server_key')
    door, node = node_with_door(trial, KEEPS_QUIET, tables=tables)
    far = door.far()
    far.gets(REQUEST, 2)
    ints = table(501, '/ints', types=('gpc0', 'gpc0_rate'), expire=60000, periods=(10000,))
    st = table(502, 'st', 'string', types=('server_key',))
    far.send(definition(ints) + update(ints, 4000, 7, (5, (100, 3, 1)), life=20000) + definition(st)
             + update(st, 9, b'a', (), name=('write', 1, b's1')) + update(st, None, b'b', (), name=('read', 1)) + FINISHED)
    far.gets(CONFIRMED, 2)
    far.gets_ack(502, 10, 2)
    equal(far.acks, [(501, 4000), (502, 10)], 'acknowledgements')
    row = node.ask('get /ints 7').split(' ')
    now = int(node.head()['moment'])
    between(now + 18000, int(row[2]), now + 20000, 'the end of the row')
    start, current, previous = row[5].split('/')
    equal((row[:2], row[3:5], current, previous), (['row', '1'], ['7', '5'], '3', '1'), 'the row')
    between(now - 2100, int(start), now - 100, 'the start of the rate')
    equal(node.ask('get st =b'), 'row 2 - =b s1', 'the row with a name')


@check
def tracks_meanwhile(trial):
    """while a node learns, a track waits, and those behind it on its connection; what it learned is then the base of the change"""
    door, node = node_with_door(trial, KEEPS_QUIET)
    far = door.far()
    far.gets(REQUEST, 2)
    node.admins.send('track t1 7 add gpc0 1\nget t1 7\n')
    other = node.admin()
    equal(other.ask('get t1 7'), 'none', 'the row meanwhile, by another connection')
    time.sleep(0.5)
    equal(other.ask('get t1 7'), 'none', 'the row meanwhile')
    there = table(9, 't1')
    far.send(definition(there) + update(there, 1, 7, (50,)) + FINISHED)
    equal(node.admins.line(2), 'reply 2 - 7 51 local', 'the track that waited')
    equal(node.admins.line(2), 'row 1 - 7 51', 'the request behind it')


@check
def tracks_after_5_seconds(trial):
    """after 5 s tracks are made, even if the node learns still"""
    door, node = node_with_door(trial, KEEPS_QUIET)
    door.far().gets(REQUEST, 2)
    node.admins.send('track t1 7 add gpc0 1\n')
    equal(node.admins.line(8), 'reply 1 - 7 1 local', 'the track')
    between(4.9, time.monotonic() - node.started, 6.5, 'seconds after the start')
    equal((node.head()['up_to_date'], node.peer('b')['state']), ('no', 'asking'), 'the node then, and its peer')
