"""The folder in which failed cases are kept: one folder for each, the smallest first."""

import ast
import os
import re
import tempfile

from harness.tables import Table


def plain(value):
    """Returns a value with tables as plain tuples, as a literal of Python."""
    if isinstance(value, Table):
        return tuple(value)
    if isinstance(value, dict):
        return {key: plain(part) for key, part in value.items()}
    if isinstance(value, list):
        return [plain(part) for part in value]
    return tuple(plain(part) for part in value) if isinstance(value, tuple) else value


def written(value, indent=''):
    """Returns a literal with the parts of its dictionary, and of the lists in it, on lines of their own."""
    lines = ['{']
    for key, part in value.items():
        if isinstance(part, list) and part:
            lines += ['  %r: [' % key] + ['    %r,' % (each,) for each in part] + ['  ],']
        else:
            lines.append('  %r: %r,' % (key, part))
    return '\n'.join(lines + ['}', ''])


class Folder:
    """A folder for failed cases: a given one, or a fresh one."""

    def __init__(self, path):
        self.is_fresh = path is None
        self.path = tempfile.mkdtemp(prefix='fuzz-') if self.is_fresh else path
        os.makedirs(self.path, exist_ok=True)

    def drop(self):
        """Removes a fresh folder in which nothing was kept."""
        if self.is_fresh and not os.listdir(self.path):
            os.rmdir(self.path)

    def keep(self, name, case, complaint, latest):
        """Keeps a case, what is wrong with it, and the latest run: its command and what it read from standard input."""
        words, text = latest
        path = os.path.join(self.path, name)
        os.makedirs(path, exist_ok=True)
        parts = {'case': written(plain(case)), 'complaint': complaint + '\n', 'command': ' '.join(map(repr, words)) + '\n'}
        for part, content in parts.items():
            with open(os.path.join(path, part), 'w', encoding='utf-8') as file:
                file.write(content)
        with open(os.path.join(path, 'input'), 'wb') as file:
            file.write(text)

    def sort(self):
        """Numbers the kept cases by the size of the case, and returns their names."""
        names = [name for name in os.listdir(self.path) if name.startswith('case-')]
        names.sort(key=lambda name: (os.path.getsize(os.path.join(self.path, name, 'case')), name))
        numbered = ['%03d-%s' % (at + 1, name[len('case-'):]) for at, name in enumerate(names)]
        for name, new in zip(names, numbered):
            os.rename(os.path.join(self.path, name), os.path.join(self.path, new))
        return numbered


def kept_name(number, kind, what):
    return 'case-%s-%s-%d' % (kind, re.sub('[^a-z]+', '-', what.lower()).strip('-'), number)


def kept_case(path):
    """Returns the kind and the data of a kept case."""
    with open(os.path.join(path, 'case'), encoding='utf-8') as file:
        case = ast.literal_eval(file.read())
    return case.pop('kind'), case
