"""Names of nodes and branches: the map that `emt make` keeps beside a study, STUDY.names, and what a place is called where there is none."""
import hashlib
import os


class Names:
    """.title, .nodes and .branches: name by number; .sources: by the line of the study. Branches side by side share a name. .rounded: what was rounded when the
    study was made, in words."""

    def __init__(self, title='', nodes=None, branches=None, sources=None):
        self.title, self.nodes, self.branches, self.sources, self.rounded = title, nodes or {}, branches or {}, sources or {}, []

    def node(self, node):
        return 'ground' if node == 0 else self.nodes.get(node, str(node))

    def place(self, row):
        """'LINE 2–3', and its name where it has one."""
        ends = '–'.join(map(self.node, row.ends)) if row.kind.branch else self.node(row.ends[0])
        name = self.branches.get(row.branch) if row.kind.branch else self.sources.get(row.line)
        return f'{row.word} {ends}' + (f' ({name})' if name else '')

    def branch(self, row):
        """As place, and by its number too where it is a branch."""
        return self.place(row) + (f', branch {row.branch}' if row.kind.branch else '')

    def column(self, node):
        """A node's voltage: 'v2', or with its name 'v(bus)'."""
        return f'v({self.nodes[node]})' if node in self.nodes else f'v{node}'

    def nodes_called(self, name):
        return [number for number, called in self.nodes.items() if called == name]

    def branches_called(self, name):
        return [number for number, called in self.branches.items() if called == name]


def digest(text):
    return hashlib.sha256(text).hexdigest()


def path_of(study):
    return os.path.splitext(study)[0] + '.names'


def written(names, text, maker, roundings):
    """The map as a text: a line for each name, fields parted by tabs."""
    lines = [f'# Made by `emt make` from {maker}: what the numbers of the study are called, and what was rounded.', f'text\t{digest(text)}']
    lines += [f'title\t{names.title}'] if names.title else []
    lines += [f'node\t{number}\t{name}' for number, name in sorted(names.nodes.items())]
    lines += [f'branch\t{number}\t{name}' for number, name in sorted(names.branches.items())]
    lines += [f'source\t{line}\t{name}' for line, name in sorted(names.sources.items())]
    return '\n'.join(lines + [f'rounded\t{words}' for words in roundings]) + '\n'


def made(study, text):
    """Whether a study's text is as `emt make` left it: the map beside it is of this text."""
    path = path_of(study)
    if not os.path.exists(path):
        return False
    with open(path, 'rb') as file:
        return f'text\t{digest(text)}'.encode() in file.read().split(b'\n')


def beside(study, text):
    """The names of a study, from the map beside it. A map of another text is left aside; a second answer says so."""
    path = path_of(study) if study else ''
    if not os.path.exists(path):
        return Names(), ''
    try:
        names, of_text = read(path)
    except (OSError, UnicodeDecodeError, ValueError, IndexError):
        return Names(), f'{path} cannot be read, so its names are left aside'
    if of_text != digest(text):
        return Names(), f'{path} is of another text than {study}, so its names are left aside: run `emt make` again'
    return names, ''


def read(path):
    """A map, and the digest of the text that it is of."""
    names, of_text = Names(), ''
    with open(path, encoding='utf-8') as file:
        for line in file:
            fields = line.rstrip('\n').split('\t')
            if fields[0] == 'text':
                of_text = fields[1]
            elif fields[0] == 'title':
                names.title = fields[1]
            elif fields[0] == 'rounded':
                names.rounded.append(fields[1])
            elif fields[0] in ('node', 'branch', 'source'):
                {'node': names.nodes, 'branch': names.branches, 'source': names.sources}[fields[0]][int(fields[1])] = fields[2]
    return names, of_text
