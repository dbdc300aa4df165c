"""For tests/plan_files, tests/reports, tests/report_files and tests/neighbours: the parts of docs/TOOLS.md on tools, and pages of HTML."""
import os, re, runpy, sys
from html.parser import HTMLParser

from tooling import root, tool

VOID = 'meta', 'rect', 'line', 'circle', 'wbr', 'link'


def section(name):
    """The part of docs/TOOLS.md that is generated from a tool's help, which tests/generated compares with it."""
    with open(os.path.join(root, 'docs/TOOLS.md')) as page:
        found = re.search(rf'^<!-- generated: tools/{name} -->\n.*?^<!-- generated: end -->$', page.read(), re.M | re.S)
    return found[0]


def is_explained(name):
    """The help has each code of the tool with its meaning and what to do, each option, and an example; the page has them too."""
    said, sys.path[:0] = section(name), [os.path.join(root, 'tools')]
    found = runpy.run_path(os.path.join(root, 'tools', name))
    meanings = {**found['MEANINGS'], **found.get('WARNINGS', {})}
    rows = set(re.findall(r'^\| `(\w+)[^`|]*` \| .*? \| .* \|$', said, re.M))
    assert rows == set(meanings), rows ^ set(meanings)
    assert all(meaning.partition('. ')[2] for meaning in meanings.values()), meanings
    help_ = tool(name, '--help')
    assert f'tools/{name} ' in help_ and all(f'  {code}: ' in help_ for code in meanings), help_
    options = set(re.findall(r'^  (?:-h, )?(--[a-z0-9-]+)', help_, re.M)) - {'--help'}
    assert options and options == set(re.findall(r'^\| `(--[a-z0-9-]+)', said, re.M)), options
    print(f'the help and the page of tools/{name}: as they have to be')


class Page(HTMLParser):
    """The elements of a page, whose tags have to be closed in order, and the texts of its cells, heads and pictures."""

    def __init__(self, text):
        super().__init__()
        self.open, self.seen, self.rows, self.heads, self.titles, self.links = [], [], [], [], [], []
        self.feed(text)
        self.close()
        assert self.open == [], self.open

    def handle_starttag(self, tag, attributes):
        self.seen.append(tag)
        assert not any(name.startswith('on') or name == 'src' for name, _ in attributes), attributes
        if tag == 'svg':
            assert ('role', 'img') in attributes, attributes
        if tag == 'th':
            assert dict(attributes).get('scope') in ('col', 'row'), attributes
        if tag == 'tr':
            self.rows.append([])
        if tag in ('td', 'th'):
            self.rows[-1].append('')
        if tag == 'a':
            self.links.append(dict(attributes)['href'])
        if tag not in VOID:
            self.open.append(tag)
            for place, kept in (('h1', self.heads), ('h2', self.heads), ('title', self.titles)):
                if tag == place:
                    kept.append('')

    def handle_endtag(self, tag):
        if tag not in VOID:
            assert self.open.pop() == tag, tag

    def handle_data(self, data):
        where = self.open[-1] if self.open else ''
        if 'td' in self.open or 'th' in self.open:
            if 'svg' not in self.open:
                self.rows[-1][-1] += data
        if where in ('h1', 'h2'):
            self.heads[-1] += data
        if where == 'title':
            self.titles[-1] += data
