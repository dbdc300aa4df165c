"""For tools/report, tools/desk and tools/audit: the pictures of a page. Their colours are those of the page's style."""
from fractions import Fraction
from html import escape

from audit import block_words, count, decimal, exact, grouped
from page_parts import element

# where a picture's scale begins and ends, in hundredths of its width: districts stand before it, and people after it
LEFT, RIGHT = 13, 78
ROW, TOP = 14, 52
# how many districts a picture has at most, so that a printed page has room for it
DISTRICTS = 20
# one district in so many may be cut at the edge, if it is so many times as far from the ideal as the others and the limits
ONE_IN, TIMES = 20, 4
CROSS, ABOVE = '✕', '▲'


class Scale:
    """From percent of the ideal to the place in a picture, in hundredths of its width; the ideal is in the middle. A few districts
    that are far beyond all others are cut at the edge, so that the others can be told apart."""

    def __init__(self, percents, limits):
        far = sorted(map(abs, percents))
        few = max(1, len(far) // ONE_IN)
        usual = far[-1 - few] if len(far) > 3 else far[-1]
        usual = max([usual, *(abs(limit) for limit in limits if abs(limit) <= TIMES * usual or limit in (-1, 1))])
        self.cuts = far[-1] > TIMES * usual > 0
        shown = 3 * usual / 2 if self.cuts else max([far[-1], *map(abs, limits)])
        self.widest = shown * 27 / 25 or 1

    def is_cut(self, percent):
        return self.cuts and abs(percent) > self.widest

    def place(self, percent):
        percent = min(max(percent, -self.widest), self.widest)
        return LEFT + (RIGHT - LEFT) * float((percent + self.widest) / (2 * self.widest))

    def at(self, percent):
        return f'{self.place(percent):.2f}%'

    def between(self, low, high):
        return f'{self.place(high) - self.place(low):.2f}%'


def limits(report):
    """The lowest and the highest percent that the law allows, and the words of either. The range allows a twentieth more than
    the people of the least district."""
    if report.kind == 'congress':
        return (-1, '\u22121 %'), (1, '+1 %')
    least = min(report.populations)
    return (report.percent(least), 'least populous'), (report.percent(Fraction(21 * least, 20)), 'least populous + 5 %')


def scale_of(report):
    """The scale that all pictures of a report have."""
    return Scale([report.percent(people) for people in report.populations], [percent for percent, _ in limits(report)])


def band_words(report):
    """What the band is, or that the scale ends before it begins."""
    scale = scale_of(report)
    low, high = (scale.place(percent) for percent, _ in limits(report))
    return 'the band is what the law allows' if low < high else 'what the law allows lies outside the picture'


def anchored(place, is_low):
    """How the words of a limit are put beside its line: away from the other limit, if there is room for them."""
    before = place > 27 if is_low else place > 62
    return ('end', -4) if before else ('start', 4)


def marks(scale, low, high, height):
    """The band that is allowed, the ideal and the limits, each with its words in a line of its own."""
    band = (f'<rect class="band" x="{scale.at(low[0])}" y="{TOP - 8}" width="{scale.between(low[0], high[0])}" '
            f'height="{height - TOP + 4}"/>')
    lines = ''
    for (percent, words), y, (anchor, shift), dashes in (
            ((0, 'ideal'), 11, ('middle', 0), ''), (low, 25, anchored(scale.place(low[0]), True), ' stroke-dasharray="4 3"'),
            (high, 39, anchored(scale.place(high[0]), False), ' stroke-dasharray="4 3"')):
        cut = f' ({decimal(percent, sign=True)} %)' if scale.is_cut(percent) else ''
        place = scale.at(percent)
        lines += (f'<line class="rule" x1="{place}" x2="{place}" y1="{y + 3}" y2="{height - 4}"{dashes}/>'
                  f'<text class="limit" x="{place}" dx="{shift}" y="{y}" text-anchor="{anchor}">{escape(words + cut)}</text>')
    return band + lines


def kind_of(report, district):
    """The class of a district's bar, and its mark."""
    if district in report.named():
        return 'named', f'{CROSS} '
    return ('beyond', f'{ABOVE} ') if district in report.beyond() else ('within', '')


def bar(scale, percent, y, kind):
    """A district's bar. One that is cut has a mark at the edge, and its percent on the other side of the ideal."""
    low, high = min(percent, 0), max(percent, 0)
    said = f'<rect class="{kind}" x="{scale.at(low)}" y="{y}" width="{scale.between(low, high)}" height="{ROW - 5}"/>'
    if not scale.is_cut(percent):
        return said + f'<circle class="{kind}" cx="{scale.at(percent)}" cy="{y + 4.5}" r="3"/>'
    sign, edge, other = ('«', 'start', 'start') if percent < 0 else ('»', 'end', 'end')
    return (f'{said}<text class="on" x="{scale.at(percent)}" y="{y + 9}" text-anchor="{edge}">{sign}</text>'
            f'<text x="{scale.at(0)}" dx="{6 if percent < 0 else -6}" y="{y + 9}" text-anchor="{other}">'
            f'{decimal(percent, sign=True)} %</text>')


def bars(report, scale, first, last):
    for district in range(first, last + 1):
        people = report.populations[district - 1]
        y = TOP + (district - first) * ROW
        kind, mark = kind_of(report, district)
        yield (f'<text x="{LEFT - 2}%" y="{y + 9}" text-anchor="end">{district}</text>{bar(scale, report.percent(people), y, kind)}'
               f'<text x="100%" y="{y + 9}" text-anchor="end">{mark}{grouped(people)}</text>')


def people_picture(report, first):
    """People of some districts from the first on, as their distance from the ideal, with what the law allows."""
    last = min(first + DISTRICTS - 1, report.districts)
    low, high = limits(report)
    scale = scale_of(report)
    height = TOP + ROW * (last - first + 1) + 6
    some = report.populations[first - 1:last]
    told = (f'The ideal is {exact(report.ideal())}. The least populous of these districts has {grouped(min(some))} people, the most '
            f'populous {grouped(max(some))}. The table below has each figure.')
    return (f'<svg role="img" aria-labelledby="people-{first} told-{first}" height="{height}">'
            f'<title id="people-{first}">People of the districts {first} to {last} compared with the ideal and the limits</title>'
            f'<desc id="told-{first}">{escape(told)}</desc>{marks(scale, low, high, height)}'
            f'{"".join(bars(report, scale, first, last))}</svg>')


def marked_words(report):
    """What the marks of the bars mean."""
    if report.kind == 'congress':
        return f' A cross ({CROSS}) marks each district that is more than one percent from the ideal.' if report.congress else ''
    beyond = len(report.beyond())
    if not beyond:
        return ''
    others = report.beyond() - report.named()
    also = f' A triangle ({ABOVE}) marks the other {count(len(others), "district")} above the limit.' if others else ''
    return (f' {count(beyond, "district")} {"has" if beyond == 1 else "have"} over five percent more people than the least populous '
            f'district. A cross ({CROSS}) marks the most and the least populous district, which the report names.{also}')


def people_pictures(report):
    pictures = ''.join(people_picture(report, first) for first in range(1, report.districts + 1, DISTRICTS))
    allowed = 'within one percent of the ideal' if report.kind == 'congress' else \
        'from the least populous district to five percent above it'
    caption = f'Each bar is a district, from the ideal to its people; {band_words(report)}: {allowed}.'
    return element('figure', pictures + element('figcaption', caption + marked_words(report)))


def mean_picture(report):
    """The mean deviation compared with its limit of one percent."""
    mean = report.mean_percent()
    widest = max(mean, 1) * 6 / 5
    end, limit = (f'{100 * float(part / widest):.2f}%' for part in (mean, 1))
    kind = 'named' if '42.4.1.a.mean' in report.broken else 'within'
    words = f'Mean deviation {decimal(mean)} percent of the ideal; the limit is 1 percent.'
    picture = (f'<svg role="img" aria-labelledby="mean-title" height="44"><title id="mean-title">{words}</title>'
               f'<rect class="{kind}" x="0" y="20" width="{end}" height="12"/>'
               f'<line class="rule" x1="{limit}" x2="{limit}" y1="16" y2="38" stroke-dasharray="4 3"/>'
               f'<text x="{limit}" y="12" text-anchor="middle">1 %</text></svg>')
    return element('figure', picture + element('figcaption', words), class_='small')


def gap_picture(gap):
    """Two blocks of a district between which no path leads."""
    told = f'District {gap["district"]}: no path within it from {block_words(gap["from"])} to {block_words(gap["to"])}'
    return (f'<svg role="img" aria-labelledby="gap-{gap["district"]}" height="34"><title id="gap-{gap["district"]}">{told}</title>'
            '<rect class="within" x="0" y="8" width="18" height="18"/><line class="rule" x1="24" x2="38%" y1="17" y2="17"/>'
            f'<text x="41%" y="22" text-anchor="middle" class="broken">{CROSS}</text>'
            '<line class="rule" x1="44%" x2="75%" y1="17" y2="17" stroke-dasharray="4 3"/>'
            '<rect class="named" x="77%" y="8" width="18" height="18"/></svg>')
