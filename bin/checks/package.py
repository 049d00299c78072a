#!/usr/bin/env python3
"""Checks of the package that bin/package makes of the program: its files, what dpkg and lintian say of it, that it is the same each time,
and that the program takes the example in it.

It tries the built program, or the one that PEERS_NODE names. For each check it prints a line `passed WHAT` or `FAILED WHAT: WHY`, and a line
`skipped WHY` for what can't be checked here; the status is 0 only if none failed."""

import gzip
import os
import re
import shutil
import subprocess
import sys
import tempfile

sys.dont_write_bytecode = True
sys.path[0] = os.path.dirname(os.path.dirname(os.path.abspath(__file__)))

from harness.checking import check, failures, program  # noqa: E402, since the path has to be set first
from harness.program import TOP  # noqa: E402

FILES = {
    'etc/digbaro/node.conf.example': 'rw-r--r--', 'usr/bin/peers_node': 'rwxr-xr-x', 'usr/lib/systemd/system/digbaro.service': 'rw-r--r--',
    'usr/share/digbaro/digbaro.dashboard.json': 'rw-r--r--', 'usr/share/digbaro/digbaro.rules.yml': 'rw-r--r--',
    'usr/share/doc/digbaro/changelog.gz': 'rw-r--r--', 'usr/share/doc/digbaro/copyright': 'rw-r--r--',
    'usr/share/lintian/overrides/digbaro': 'rw-r--r--', 'usr/share/man/man8/peers_node.8.gz': 'rw-r--r--'}
PROVED = os.path.realpath(os.path.join(TOP, 'crates/peers_node/out/peers_node'))
NEEDED = ('dpkg-deb', 'dpkg-parsechangelog', 'readelf', 'strip')


def run(*words, **how):
    """Returns how a command ended, with what it said."""
    return subprocess.run(words, text=True, capture_output=True, timeout=300, check=False, **how)


def text_of(*path):
    """Returns the text of a file."""
    with open(os.path.join(*path), encoding='utf-8') as file:
        return file.read()


def lacks(tools, what):
    """Says which tools are missing for a check, and returns whether one is. With DIGBARO_ALL_CHECKS=1 that fails."""
    for tool in tools:
        if shutil.which(tool) is None:
            if os.environ.get('DIGBARO_ALL_CHECKS') == '1':
                check('%s is there for %s' % (tool, what), False)
            else:
                print('skipped: no %s for %s' % (tool, what), flush=True)
            return True
    return False


def links_libc_only():
    """Returns whether the program links libc and its loader alone, as the package wants it; one that is built with a sanitizer doesn't."""
    return {'libc.so.6'} == set(re.findall(r'\(NEEDED\).*\[(.*)\]', run('readelf', '-d', program).stdout)) - {'ld-linux-x86-64.so.2'}


def make(folder):
    """Makes the package in a folder, and returns how bin/package ended."""
    return run(os.path.join(TOP, 'bin', 'package'), folder, env={**os.environ, 'PEERS_NODE': '' if program == PROVED else program})


def contents(name):
    """Checks that the package and the tarball have the files above and no others, all of them root's, and equal ones."""
    listed = [line.split(None, 5) for line in run('dpkg-deb', '-c', name + '.deb').stdout.splitlines()]
    files = {path[2:]: mode[1:] for mode, _, _, _, _, path in listed if mode[0] != 'd'}
    check('the package has its files', files == FILES, set(files.items()) ^ set(FILES.items()))
    check('all files of the package are root\'s', {owner for _, owner, *_ in listed} == {'root/root'})
    package, tarball = (os.path.join(name + '.files', kind) for kind in ('package', 'tarball'))
    os.makedirs(tarball)
    run('dpkg-deb', '-x', name + '.deb', package)
    run('tar', '-C', tarball, '--strip-components=1', '-xzf', name + '.tar.gz')
    equal = run('diff', '-r', package, tarball)
    check('the tarball has the files of the package', equal.returncode == 0, equal.stdout, equal.stderr)
    return package


def fields(name, root, version):
    """Checks what the package says of itself, and its unit."""
    said = run('dpkg-deb', '-f', name + '.deb', 'Version', 'Architecture').stdout
    check('the package has the version of the program', said == 'Version: %s\nArchitecture: amd64\n' % version, said, version)
    conffiles = run('dpkg-deb', '-I', name + '.deb', 'conffiles').stdout
    check('the example is a conffile', conffiles == '/etc/digbaro/node.conf.example\n', conffiles)
    unit = text_of(root, 'usr/lib/systemd/system/digbaro.service')
    check('the unit starts nothing without a configuration', '\nConditionPathExists=/etc/digbaro/node.conf\n' in unit)


def pages(root, version):
    """Checks the changelog in the package, and that the pages name the package of this version."""
    log = os.path.join(root, 'changelog')
    with gzip.open(os.path.join(root, 'usr/share/doc/digbaro/changelog.gz')) as zipped, open(log, 'wb') as file:
        file.write(zipped.read())
    parsed = run('dpkg-parsechangelog', '--all', '-l', log)
    check('dpkg reads the changelog', parsed.returncode == 0 and not parsed.stderr, parsed.stderr)
    versions = re.findall(r'^## (\S+) - [0-9-]+$', text_of(TOP, 'CHANGELOG.md'), re.MULTILINE)
    found = re.findall(r'^digbaro \((\S+)\)', text_of(log), re.MULTILINE)
    check('the changelog has each version of CHANGELOG.md', found == versions and found[:1] == [version], found, versions)
    for page in ('README.md', 'docs/peers_node.8'):
        named = set(re.findall(r'digbaro_(\S+)_amd64', text_of(TOP, page)))
        check('%s names the package of this version' % page, named == {version}, named, version)


def example():
    """Checks that the program takes the example of the package, with nothing to warn of."""
    taken = run(program, 'run', '--check', input=text_of(TOP, 'dist/node.conf.example'))
    check('run --check takes the example of the package', (taken.returncode, taken.stdout, taken.stderr) == (0, '', ''), taken.stderr)


def lint(name):
    """Checks that lintian has nothing to say, at any level, but for words that it makes of the program's machine code."""
    if not lacks(['lintian'], 'the package'):
        found = run('lintian', '--allow-root', '--display-info', '--pedantic', '--fail-on', 'error,warning,info,pedantic',
                    '--suppress-tags', 'spelling-error-in-binary', name + '.deb')
        check('lintian of the package', found.returncode == 0 and not found.stdout, found.stdout, found.stderr)


def main():
    example()
    if lacks(NEEDED, 'the package'):
        return
    with tempfile.TemporaryDirectory(prefix='package-') as folder:
        first = make(os.path.join(folder, 'first'))
        if not links_libc_only():
            check('a program that links more than libc is refused', first.returncode == 1 and 'links more than libc' in first.stderr, first.stderr)
            print('skipped: the program links more than libc, so there is no package of it', flush=True)
            return
        check('bin/package makes a package', first.returncode == 0, first.stderr)
        said = 'the program is the proved one' if program == PROVED else 'it may come from other sources'
        check('bin/package says of which program', said in first.stdout, first.stdout)
        again = make(os.path.join(folder, 'again'))
        check('a second package has the same checksums', first.stdout == again.stdout, first.stdout, again.stdout)
        names = sorted(os.listdir(os.path.join(folder, 'first')))
        check('there are a package, a tarball and their checksums', [name.split('amd64')[-1] for name in names] == ['.deb', '.sha256', '.tar.gz'], names)
        name = os.path.join(folder, 'first', names[0][:-len('.deb')])
        sums = run('sha256sum', '-c', name + '.sha256', cwd=os.path.dirname(name))
        check('the checksums are those of the files', sums.returncode == 0, sums.stderr)
        root = contents(name)
        version = run(os.path.join(root, 'usr/bin/peers_node'), '--version').stderr.split()[-1]
        fields(name, root, version)
        pages(root, version)
        lint(name)


if __name__ == '__main__':
    main()
    sys.exit(1 if failures else 0)
