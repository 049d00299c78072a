"""The members of a mesh: a HAProxy (haproxy.py) or a node, each with two tables. They are loaded, looked at, and disturbed.

The table `ints` belongs to the peers section, and its name on the wire is `/ints`; `names` belongs to a backend, with the name of a
server for each key."""

import abc
import bisect
import os
import re
import signal
import subprocess
import threading
import time
from collections import namedtuple
from typing import Any

from harness.node import AS_THE_UNIT, Admin, Node, address, fields, said_by
from harness.trial import Wrong, wait

# Rows live longer than bin/interop runs, in seconds: what is gone then was lost.
EXPIRE = 7200
NODE_LINES = ('section mesh', 'table 1 /ints integer 4 %d000 gpc0 http_req_rate:10000' % EXPIRE,
              'table 2 names string 33 %d000 server_id server_key' % EXPIRE, 'size 1 102400', 'size 2 102400')
SERVERS = 5

# What was seen of a member at a moment: the process, the peers with which it is connected (None if it didn't answer), its counts of
# faults, how it stands with its resync, its resident memory in KiB and its descriptors.
Sighting = namedtuple('Sighting', 'moment process peers faults resync memory descriptors')
# A process of a member: when it was started, and when the next one was, or infinity.
Process = namedtuple('Process', 'begun over')
# The end of a resync that a member learned by, and the peer that finished it.
Lesson = namedtuple('Lesson', 'moment teacher')


class Member(abc.ABC):
    """What every member has. `starts` are the moments when its processes were started, `blows` those that struck it, `sightings` what was
    seen of it, `said` the lines of its log, each with the moment when it came, and `wrongs` what it did wrong."""

    def __init__(self, name, folder, port):
        self.name = name
        self.folder = folder
        self.port = port
        self.child: Any = None
        self.client: Any = None
        self.is_stale = False
        self.starts: list[float] = []
        self.blows: list[Any] = []
        self.sightings: list[Sighting] = []
        self.said: list[tuple[float, str]] = []
        self.wrongs: list[str] = []

    faults_counted: tuple[str, ...] = ()

    @abc.abstractmethod
    def state(self):
        """Returns the names of the peers with which it has a session, its counts of faults, and how its resync stands."""

    @abc.abstractmethod
    def is_up_to_date(self, sighting):
        """Whether its resync was over when it was seen so."""

    def connected_to(self):
        return self.state()[0]

    def file(self, ending):
        return os.path.join(self.folder, self.name + ending)

    def runs(self):
        return self.child is not None and self.child.poll() is None

    def drop(self):
        """Drops the connection over which it is loaded."""
        if self.client is not None:
            self.client.close()
            self.client = None
        self.is_stale = False

    def has_to_run(self):
        """Notes it as wrong if its process has ended."""
        if not self.runs():
            self.wrongs.append('it had ended with status %s' % self.child.returncode)

    def kill(self):
        self.has_to_run()
        self.child.kill()
        self.child.wait()

    def pause(self, seconds):
        """Stops its process for a while."""
        self.child.send_signal(signal.SIGSTOP)
        time.sleep(seconds)
        self.child.send_signal(signal.SIGCONT)

    def close(self):
        if self.runs():
            self.child.kill()
            self.child.wait()

    def memory(self):
        """Returns its resident memory in KiB, and how many descriptors and threads it has."""
        with open('/proc/%d/status' % self.child.pid) as file:
            status = file.read()
        return (int(re.search(r'VmRSS:\s+([0-9]+)', status)[1]), len(os.listdir('/proc/%d/fd' % self.child.pid)),
                int(re.search(r'Threads:\s+([0-9]+)', status)[1]))

    def look(self):
        """Notes what there is to be seen of it."""
        process = self.child.pid
        try:
            peers, faults, resync = self.state()
        except Exception:  # It is down, or paused.
            peers, faults, resync = None, {}, None
        try:
            memory, descriptors, _ = self.memory()
        except (OSError, TypeError):  # Its process has ended.
            return
        self.sightings.append(Sighting(time.monotonic(), process, peers, faults, resync, memory, descriptors))

    def process(self, moment):
        """Returns its process that was started last before a moment."""
        place = bisect.bisect(self.starts, moment)
        return Process(self.starts[place - 1], self.starts[place] if place < len(self.starts) else float('inf'))

    def up_to_date(self, process):
        """Returns when one of its processes was up to date, as far as was seen, or infinity if it never was."""
        return next((sighting.moment for sighting in self.sightings
                     if process.begun <= sighting.moment < process.over and self.is_up_to_date(sighting)), float('inf'))

    def ends(self, peer, begin, end):
        """Returns what it said of the ends of its sessions with a peer from one moment to another, each with its moment."""
        said = [(moment, line, said_by(line)) for moment, line in self.said if begin <= moment < end]
        return [(moment, line) for moment, line, said in said if said and said.event == 'ended' and said.keys['peer'] == peer]

    def all_faults(self):
        """Returns its counts of faults, of all its processes together, each as it was seen last."""
        latest = {sighting.process: sighting.faults for sighting in self.sightings if sighting.faults}
        return {name: sum(faults[name] for faults in latest.values()) for name in self.faults_counted}


class NodeMember(Member):
    """A node that stays."""

    kind = 'node'
    other_blow = 'stop'
    faults_counted = ('faults',)

    def __init__(self, name, folder, trial):
        self.node = Node(trial, name)
        super().__init__(name, folder, self.node.port)
        self.node.environment = AS_THE_UNIT
        self.admin_port = self.node.admin_port

    def configure(self, peers):
        self.node.configure(['%s %s' % (name, address(port)) for name, port in peers if name != self.name], NODE_LINES)

    def version(self):
        return self.node.program

    def start(self):
        self.starts.append(time.monotonic())
        output, self.node.told = os.pipe()
        self.node.launch()
        os.close(self.node.told)
        self.child = self.node.child
        threading.Thread(target=self.note, args=(os.fdopen(output, 'rb'),), daemon=True).start()
        wait(self.opened, 10, '%s listens' % self.name)

    def note(self, output):
        """Notes each line that a process of it writes, until that ends."""
        with output, open(self.file('.log'), 'ab') as log:
            for line in output:
                self.said.append((time.monotonic(), line.decode('latin-1').rstrip()))
                log.write(b'%.3f %s' % (self.said[-1][0], line))
                log.flush()

    def lesson(self, process):
        """Returns when, and by which peer, a resync of one of its processes was finished; or None if none was."""
        for moment, line in self.said:
            said = said_by(line)
            if said and process.begun <= moment < process.over and said.event == 'resync-ended' \
                    and (said.keys['role'], said.keys['end']) == ('learner', 'finished'):
                return Lesson(moment, said.keys['peer'])
        return None

    def has_left(self, peer, table, moment):
        """Whether it had left a table on its connection with a peer at a moment."""
        lines = [said_by(line) for said, line in self.said if said <= moment]
        lines = [said for said in lines if said and said.keys.get('peer') == peer
                 and (said.event == 'connected' or said.event == 'left' and said.keys['table'] == {'ints': '/ints', 'names': 'names'}[table])]
        return bool(lines) and lines[-1].event == 'left'

    def is_up_to_date(self, sighting):
        return sighting.resync == 'yes'

    def up_to_date(self, process):
        lesson = self.lesson(process)
        return min(super().up_to_date(process), lesson.moment if lesson else float('inf'))

    def opened(self):
        """Whether it takes requests."""
        try:
            Admin(self.admin_port).close()
        except OSError:
            return False
        return True

    def ask(self, request):
        admin = Admin(self.admin_port)
        admin.peer.settimeout(5)
        try:
            return admin.ask(request)
        finally:
            admin.close()

    def other(self, then=lambda: None):
        """Stops it by a request, does something else, and starts it again."""
        try:
            self.ask('stop')
            if self.child.wait(10) != 0:
                self.wrongs.append('stop ended with status %d' % self.child.returncode)
        except (subprocess.TimeoutExpired, OSError, Wrong) as error:
            self.wrongs.append('stop: %s' % error)
            self.child.kill()
            self.child.wait()
        then()
        self.start()

    def state(self):
        head, *lines = self.ask('show peers')
        peers = {line.split(' ')[1]: fields(line) for line in lines if line.startswith('peer ')}
        faults = {'faults': sum(int(peer['faults']) for peer in peers.values())}
        return {name for name, peer in peers.items() if peer['state'] != 'down'}, faults, fields(head)['up_to_date']

    def rows(self):
        found = {}
        for line in self.ask('show rows'):
            words = line.split(' ')
            if words[1] == '1':
                found['ints', int(words[3])] = int(words[4])
            else:
                found['names', words[3][1:]] = words[5]
        return found

    def tracked(self, *requests):
        """Makes changes, and returns the answers if all are a reply with a row, or nothing."""
        answers = []
        try:
            if self.client is None:
                self.client = Admin(self.admin_port)
            for request in requests:
                answers.append(self.client.ask(request) or '')
                if not answers[-1].startswith('reply '):
                    self.drop()
                    return []
            return answers
        except Exception:  # The node was killed meanwhile, or is paused.
            self.drop()
            return []

    def count(self, key):
        """Counts a key, and returns the value answered, or None."""
        answers = self.tracked('track mesh/ints %d add gpc0 1' % key)
        return int(answers[0].split(' ')[4]) if answers else None

    def server(self, key):
        """Returns the name of the server that it tracks for a key."""
        return 's%d' % (1 + sum(key.encode()) % SERVERS)

    def stick(self, key):
        """Tracks a server for a key, and returns whether it was answered."""
        server = self.server(key)
        return bool(self.tracked('track names =%s put server_id %s' % (key, server[1:]), 'track names =%s name %s' % (key, server)))
