"""The dashboard for Grafana, whose queries a Prometheus answers that scrapes a node under load."""

import json
import os
import shutil
import subprocess
import time
import urllib.error
import urllib.parse
import urllib.request

from harness.far import connected, speaks, status_of
from harness.node import T1, Node, address
from harness.program import TOP
from harness.trial import Folder, Skipped, check, require, wait
from harness.wire import switch
from staying.sessions import up_to_date

DASHBOARD = os.path.join(TOP, 'dist/digbaro.dashboard.json')
# What stands for the variables of Grafana, which knows them from what is shown.
VARIABLES = {'$__rate_interval': '1m', '$job': 'digbaro', '$instance': '127.*'}
SCRAPES = '''global: {{scrape_interval: 500ms, scrape_timeout: 500ms}}
scrape_configs: [{{job_name: digbaro, static_configs: [{{targets: ['{target}']}}]}}]
'''


class Prometheus:
    """A Prometheus that scrapes a target."""

    def __init__(self, trial, target):
        binary = shutil.which('prometheus')
        if binary is None:
            raise Skipped('there is no prometheus')
        folder = Folder(trial)
        self.port = trial.ports.next()
        self.log = folder.path('log')
        with open(folder.path('prometheus.yml'), 'w') as file:
            file.write(SCRAPES.format(target=target))
        with open(self.log, 'w') as log:
            self.child = subprocess.Popen([binary, '--config.file', folder.path('prometheus.yml'), '--storage.tsdb.path', folder.path('data'),
                                           '--web.listen-address', address(self.port)], stdin=subprocess.DEVNULL, stdout=log, stderr=log)
        trial.closes(self)

    def said(self):
        """Returns what it wrote last."""
        with open(self.log) as log:
            return log.read()[-500:]

    def ask(self, query):
        """Returns the samples that a query finds, each with its labels; none while it starts."""
        text = urllib.parse.urlencode({'query': query})
        try:
            with urllib.request.urlopen('http://%s/api/v1/query?%s' % (address(self.port), text), timeout=10) as answer:
                return json.load(answer)['data']['result']
        except urllib.error.HTTPError as error:
            require(error.code == 503, 'Prometheus refuses a query:', query, error.read().decode())
            return []
        except OSError:
            return []

    def close(self):
        self.child.kill()
        self.child.wait()


def queries():
    """Returns the title of each panel of the dashboard with each query of it."""
    with open(DASHBOARD) as file:
        panels = json.load(file)['panels']
    return [(panel['title'], target['expr']) for panel in panels for target in panel.get('targets', [])]


def load(node, seconds):
    """Counts keys, more than one of the tables has room for, for so many seconds."""
    latest = time.monotonic() + seconds
    while time.monotonic() < latest:
        node.admins.send(''.join('track %s %d add gpc0 1\n' % (name, key) for name in ('t1', 'small') for key in range(500)))
        for _ in range(1000):
            node.admins.line()
        time.sleep(0.05)


@check
def dashboard(trial):
    """each query of the dashboard finds numbers, in a Prometheus that scrapes a node under load, with a peer that is down, one that connects
    again, a fault, and a hello that is refused"""
    port = trial.ports.next()
    prometheus = Prometheus(trial, address(port))
    node = Node(trial, peers=('b', 'c 127.0.0.1:%d' % trial.ports.next()), tables=(T1, 'table 2 small integer 4 0 gpc0', 'size 2 100'),
                more=('metrics ' + address(port),)).start()
    wait(lambda: prometheus.ask('digbaro_up_to_date'), 30, 'Prometheus has scraped the node', prometheus.said, pause=0.5)
    far = connected(trial, node)
    up_to_date(node)
    load(node, 4)
    far.close()
    status_of(speaks(trial, node, b'no hello\n\n\n'))
    far = connected(trial, node)
    load(node, 4)
    far.send(switch(9))
    wait(lambda: prometheus.ask('digbaro_faults_total'), 5, 'Prometheus has scraped the fault', node.said, pause=0.5)
    for title, query in queries():
        for variable, value in VARIABLES.items():
            query = query.replace(variable, value)
        found = prometheus.ask(query)
        require(found, 'the query of "%s" finds nothing:' % title, query)
        require(all(sample['value'][1] not in ('NaN', '+Inf', '-Inf') for sample in found), 'the query of "%s" finds no number:' % title, query)
