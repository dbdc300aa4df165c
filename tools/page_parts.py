"""For tools/report, tools/desk and tools/audit: what a page of HTML is made of. There is no script in a page, and it loads nothing."""
import re
from html import escape
from urllib.parse import quote

# the colours of a page by their names, in daylight and in the dark; tests/reports computes their contrasts
LIGHT = {'ground': '#ffffff', 'text': '#1b1b1b', 'quiet': '#4a4a4a', 'rule': '#8a8a8a', 'link': '#0b4f8a', 'seen': '#6a3d8a', 'bad': '#a3300f',
         'good': '#1f6b3a', 'bad-ground': '#fbeee9', 'good-ground': '#eef6f0', 'code-ground': '#f4f4f4', 'changed': '#fff3d6',
         'within': '#2b6ca3', 'beyond': '#9a5b00', 'named': '#b3401f', 'band': '#dfe9df'}
DARK = {'ground': '#14171a', 'text': '#e8e6e3', 'quiet': '#b9b9b9', 'rule': '#7d8286', 'link': '#8ab9ff', 'seen': '#cdaaf5', 'bad': '#ff9d82',
        'good': '#7fd6a0', 'bad-ground': '#331b14', 'good-ground': '#16281d', 'code-ground': '#1f2326', 'changed': '#3a3012',
        'within': '#6fb1e8', 'beyond': '#f0b55a', 'named': '#ff8a6b', 'band': '#26382c'}


def colours(named):
    return ' '.join(f'--{name}: {colour};' for name, colour in named.items())


STYLE = f':root {{ color-scheme: light; {colours(LIGHT)} }}\n' \
        f'@media screen and (prefers-color-scheme: dark) {{ :root {{ color-scheme: dark; {colours(DARK)} }} }}' + '''
:root { color: var(--text); background: var(--ground); font: 16px/1.5 "DejaVu Sans", Verdana, sans-serif; }
body { max-width: 60rem; margin: 0 auto; padding: 1rem; } body.wide { max-width: 76rem; }
a { color: var(--link); } a:visited { color: var(--seen); }
h1 { font-size: 1.6rem; line-height: 1.2; margin: 0.5rem 0; } h2 { font-size: 1.2rem; margin: 2rem 0 0.5rem; }
h1, h2, p, li { overflow-wrap: break-word; }
.verdict { font-size: 1.1rem; padding: 0.6rem 0.9rem; border-left: 0.4rem solid var(--good); background: var(--good-ground); }
.verdict.broken { border-color: var(--bad); background: var(--bad-ground); }
dl { display: grid; grid-template-columns: repeat(auto-fit, minmax(9rem, 1fr)); gap: 0.5rem 1.5rem; margin: 1rem 0; }
dl div { border-top: 1px solid var(--rule); } dt { font-size: 0.85rem; color: var(--quiet); } dd { margin: 0; font-weight: bold; }
table + table { margin-top: 1.5rem; } table { border-collapse: collapse; width: 100%; }
caption { text-align: left; font-size: 0.9rem; color: var(--quiet); padding: 0.3rem 0; }
th, td { text-align: left; vertical-align: top; padding: 0.3rem 0.6rem 0.3rem 0; border-bottom: 1px solid var(--rule); }
th.n, td.n { text-align: right; font-variant-numeric: tabular-nums; } td.n { white-space: nowrap; } small { display: block; color: var(--quiet); font-weight: normal; }
.name { display: inline-block; overflow-wrap: anywhere; max-width: 100%; }
.is-not-met, .is-met, time span { white-space: nowrap; } .is-not-met { color: var(--bad); font-weight: bold; } .is-met { color: var(--good); } .not-met { color: var(--bad); } .changed { background: var(--changed); }
details { margin: 0.4rem 0; } summary { cursor: pointer; }
figure { margin: 1rem 0; } figcaption { font-size: 0.9rem; color: var(--quiet); } svg { width: 100%; display: block; }
svg text { font: 12px "DejaVu Sans", Verdana, sans-serif; fill: var(--text); } svg .rule { stroke: var(--quiet); }
svg .band { fill: var(--band); } svg .within { fill: var(--within); } svg .beyond { fill: var(--beyond); } svg .named { fill: var(--named); }
svg text.limit { paint-order: stroke; stroke: var(--ground); stroke-width: 5px; } svg text.broken { fill: var(--bad); } svg text.on { fill: var(--ground); }
ul.codes { list-style: none; display: flex; flex-wrap: wrap; gap: 0.4rem; padding: 0; margin: 0.4rem 0; }
ul.codes li { border: 1px solid var(--rule); border-radius: 0.3rem; padding: 0 0.5rem; font-variant-numeric: tabular-nums; }
code { overflow-wrap: anywhere; font-size: 0.85rem; } nav > a { margin-right: 1rem; }
pre { white-space: pre-wrap; overflow-wrap: anywhere; font-size: 0.8rem; background: var(--code-ground); padding: 0.6rem; }
@media (max-width: 40rem) { .stacks thead { display: none; } .stacks, .stacks tbody, .stacks caption { display: block; }
  .stacks tr { display: block; border-bottom: 1px solid var(--rule); padding: 0.5rem 0; }
  .stacks th, .stacks td { display: block; border: 0; padding: 0.1rem 0; } .stacks td:empty { display: none; }
  .stacks th.n, .stacks td.n { text-align: left; } .stacks [data-label]::before { content: attr(data-label) ": "; } }
@media print { :root { font-size: 11px; } body, body.wide { max-width: none; padding: 0; } h2 { break-after: avoid; }
  tr, figure.small { break-inside: avoid; } thead { display: table-header-group; }
  svg, .verdict, .changed, pre { print-color-adjust: exact; -webkit-print-color-adjust: exact; } }
'''
ROLES = {'col': 'columnheader', 'row': 'rowheader', None: 'cell'}


def element(name, content, **attributes):
    """An element whose content is HTML already; what its attributes say is escaped."""
    said = ''.join(f' {key.rstrip("_")}="{escape(str(value))}"' for key, value in attributes.items() if value is not None)
    return f'<{name}{said}>{content}</{name}>'


def row(cells, head=False, labels=None, class_=None):
    """A row of a table: its cells' HTML, and whether each is a number. The first heads the row. A label is said before its cell
    where a narrow page shows the row as a block."""
    said = []
    for place, (content, number) in enumerate(cells):
        scope = 'col' if head else 'row' if place == 0 else None
        # the roles stay where a narrow page shows a row as a block
        attributes = {'scope': scope, 'role': ROLES[scope], 'class': 'n' if number else None,
                      'data-label': labels[place] if labels else None}
        said.append(element('th' if scope else 'td', content, **attributes))
    return element('tr', ''.join(said), role='row', class_=class_)


def table(caption, heads, rows, labelled=False, marked=(), **attributes):
    """A table of texts; each column has a head and whether it is of numbers. The rows at the marked places stand out."""
    head = element('thead', row([(breakable(text), number) for text, number in heads], head=True), role='rowgroup')
    labels = [text for text, _ in heads] if labelled else None
    body = ''.join(row([(cell, number) for cell, (_, number) in zip(cells, heads)], labels=labels,
                       class_='changed' if place in marked else None) for place, cells in enumerate(rows))
    content = element('caption', escape(caption)) + head + element('tbody', body, role='rowgroup')
    return element('table', content, role='table', **attributes)


def breakable(text):
    """A text that a line breaks behind its signs first, and not in the middle of a word that has room."""
    return re.sub('([-_/])(?=.)', '\\1<wbr>', escape(text))


def name(text):
    """The same in a cell, which is as wide as its longest word, if that is not too wide for a table."""
    longest = max(map(len, re.split('(?<=[-_/])', text)))
    return element('span', breakable(text), class_='name', style=f'min-width: min({longest}ch, 18rem)')


def href(file):
    """The address of a file in the same folder, also if its name begins with a dot or has a sign that addresses know."""
    return f'./{quote(file, safe="+")}'


def link(text, file):
    return element('a', escape(text), href=href(file))


def navigation(links):
    return element('nav', element('p', ' · '.join(links)))


def codes(title, values, none):
    if not values:
        return f'<p>{escape(title)}: {escape(none)}.</p>'
    return f'<p>{escape(title)}: {len(values)}</p>' + element('ul', ''.join(element('li', escape(v)) for v in values), class_='codes')


def document(title, body, wide=False, feed=None):
    """A page: its text is escaped already, but for the title. A feed is the file of a feed of what changed."""
    feed_link = f'<link rel="alternate" type="application/atom+xml" href="{href(feed)}">\n' if feed else ''
    wide_class = ' class="wide"' if wide else ''
    return ('<!DOCTYPE html>\n<html lang="en">\n<head>\n<meta charset="utf-8">\n'
            '<meta http-equiv="Content-Security-Policy" content="default-src \'none\'; style-src \'unsafe-inline\'">\n'
            '<meta name="viewport" content="width=device-width, initial-scale=1">\n'
            f'<title>{escape(title)}</title>\n{feed_link}<style>{STYLE}</style>\n</head>\n<body{wide_class}>\n<main>\n{body}\n</main>\n'
            '</body>\n</html>\n')
