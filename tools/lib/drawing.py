"""A timeline (lib/timeline.py) as a picture in SVG: a row for each surface, time to the right by the number of the
record, in bands below each other where one would be too wide.

The same timeline gives the same bytes. What can be told apart by colour can be told apart by lightness or shape too.
"""
from . import records, timeline
from .svg import element, group, number, printable, text, title

# what is drawn at once: a picture of this many records has some 60 bands
MOST = 10000
# sizes in pixels; a band has at most BAND records, each at most STEP wide
MARGIN, LEFT, RIGHT, WIDE, STEP, BAND = 28, 88, 34, 1080, 40, 180
ROW, BAR_TOP, BAR = 27, 13, 11
LINE, AXIS, GAP = 13, 24, 16
# how many names of calls may stand above each other
TIERS = 5

INK, FAINT, GRID, STRIPE, RED = "#1a1a1a", "#5f5f5f", "#dcdcdc", "#f5f5f5", "#b2182b"
OUTLINE = {"stroke": "#3c5064", "stroke_width": 0.6}
FILLS = {timeline.CURRENT: "#0b4f8a", timeline.WAITING: "url(#timeline-waiting)", timeline.REFERENCE: "#d6e6f2"}
# of each list the colour of its curves, their dashes and the side that they are bent to
LISTS = {"l0": ("#1b7837", "none", -1), "l1": ("#762a83", "4 2", 1)}
DEFINITIONS = (
    '<defs>'
    '<pattern id="timeline-waiting" width="5" height="5" patternUnits="userSpaceOnUse" patternTransform="rotate(45)">'
    '<rect width="5" height="5" fill="#f5b942"/><rect width="1.6" height="5" fill="#b06a00"/></pattern>'
    '<pattern id="timeline-display" width="4" height="4" patternUnits="userSpaceOnUse" patternTransform="rotate(-45)">'
    '<rect width="4" height="4" fill="#ffffff"/><rect width="1.2" height="4" fill="#444444"/></pattern>'
    '</defs>'
)


# ---- shapes

def segment(x, y, wide, state):
    return element("rect", x=x, y=y, width=wide, height=BAR, fill=FILLS[state])


def goes_on(x, y, state):
    """The tip of a bar that goes on behind the edge."""
    return element("path", d=f"M{number(x)} {number(y)}l6 {BAR / 2}l-6 {BAR / 2}z", fill=FILLS[state])


def handed_mark(x, y, *inside):
    """A triangle around the middle of a bar at y."""
    return element("path", *inside, class_="handed", d=f"M{number(x)} {number(y - 5)}l5 9.5h-10z", fill=INK,
                   stroke="#ffffff", stroke_width=1.2)


def thrown_mark(x, y, *inside):
    cross = f"M{number(x - 4.5)} {number(y - 4.5)}l9 9m0 -9l-9 9"
    under = element("path", d=cross, stroke="#ffffff", stroke_width=5)
    return element("g", *inside, under, element("path", d=cross, stroke=RED, stroke_width=2.4), class_="thrown",
                   fill="none", stroke_linecap="round")


def refused_mark(x, y, *inside):
    return element("path", *inside, class_="refused", d=f"M{number(x)} {number(y - 5)}l5 5l-5 5l-5 -5z", fill=RED)


def missing_mark(x, y, *inside):
    return element("circle", *inside, class_="missing", cx=x, cy=y, r=3, fill="#ffffff", stroke=RED,
                   stroke_width=1.4)


def dot(x, y, colour, *inside):
    return element("circle", *inside, class_="named", cx=x, cy=y, r=2.4, fill=colour, stroke="#ffffff",
                   stroke_width=0.8)


def hatched(x, y, wide, *inside):
    """A little higher than a bar, so that it is seen behind one."""
    return element("rect", *inside, class_="display", x=x, y=y - 3, width=wide, height=BAR + 6,
                   fill="url(#timeline-display)", stroke="#444444", stroke_width=0.6)


# ---- words

def width(words):
    """Of a few words or numbers, at most, in any plain font."""
    return 6.4 * len(words)


def picture_words(picture, word):
    moves = [("begun", picture.begun), ("handed out", picture.handed), ("thrown away", picture.thrown),
             ("released", picture.released)]
    said = [f"{what} by {word} {at}" for what, at in moves if at is not None]
    flag = "" if picture.output else ", not to be shown"
    return (f"serial {picture.serial}, surface {picture.surface}, POC {picture.poc}{flag}\n"
            + ", ".join(said) + ("" if picture.released else ", not released"))


def refusal_words(refusal, word):
    of = "" if refusal.of == "?" else f", {refusal.of},"
    name = records.REFUSALS.get(refusal.number)
    return f"{word} {refusal.at}{of} refused with {refusal.number}" + (f": {name}" if name else "")


def label(picture, clear, room):
    """Serial and POC as far as there is room; where not even the short form is clear of the next line, the line is
    crossed."""
    long, short = f"{picture.serial} · POC {picture.poc}", f"{picture.serial}:{picture.poc}"
    forms = ((long, clear), (short, clear), (short, room), (str(picture.serial), room), ("", room))
    return next(form for form, limit in forms if width(form) <= limit)


# ---- a band

class Band:
    """The records from `first` to `last`, each `step` wide; its rows are the surfaces, from `top` down."""

    def __init__(self, shown, surfaces, limits, step, top):
        self.shown, self.surfaces, self.step, self.top = shown, surfaces, step, top
        self.first, self.last = limits
        self.edge = LEFT + (self.last - self.first + 1) * step
        self.pictures = [(p, pieces) for p in shown.pictures if (pieces := p.within(*limits))]
        self.moments, self.refusals, self.lists = map(self.inside, (shown.moments, shown.refusals, shown.lists))
        self.tiers = self.tiers_of_moments()
        self.rows = top + LINE * (1 + max(self.tiers.values(), default=0)) + 4
        self.bottom = self.rows + ROW * len(surfaces)
        self.end = self.bottom + (ROW if shown.refusals else 0)
        names = [self.x(moment.at) + width(moment.name) for moment in self.moments if moment.at in self.tiers]
        self.right = max([self.edge + RIGHT - 10, *names]) + 10

    def inside(self, happened):
        return [x for x in happened if self.first <= x.at <= self.last]

    def x(self, at, otherwise=None):
        """Where a record stands: in the middle of its step."""
        return otherwise if at is None else LEFT + (at - self.first + 0.5) * self.step

    def y(self, surface):
        """The top of a bar."""
        return self.rows + ROW * self.surfaces[surface] + BAR_TOP

    def middle(self, surface):
        return self.y(surface) + BAR / 2

    # the names of calls, above the rows

    def tiers_of_moments(self):
        """For each call that has a line the height of its name, in lines of text: a name begins at its own line and
        crosses neither another name nor another line. A call for which that would be too high has no name."""
        tiers = {}
        for moment in reversed(self.moments):
            end = self.x(moment.at) + width(moment.name) + 8
            later = [tier for at, tier in tiers.items() if self.x(at) < end]
            tier = 1 + max(later, default=-1)
            if tier < TIERS:
                tiers[moment.at] = tier
        return tiers

    def moment(self, moment):
        x, tier = self.x(moment.at), self.tiers.get(moment.at)
        top = self.rows - 4 if tier is None else self.rows - 6 - LINE * (tier + 0.6)
        said = title(f"{self.shown.words[0]} {moment.at}: {moment.text}")
        line = element("path", d=f"M{number(x)} {number(top)}V{number(self.bottom)}", stroke=FAINT, stroke_width=1)
        wide = element("rect", x=x - 2, y=top, width=4, height=self.bottom - top, fill="#ffffff", fill_opacity=0)
        name = [] if tier is None else [text(moment.name, x + 4, self.rows - 7 - LINE * tier, fill=FAINT)]
        return element("g", said, line, wide, *name, class_="moment")

    # rows and axis

    def frame(self):
        rows = [(surface, self.rows + ROW * place) for surface, place in self.surfaces.items()]
        stripes = [element("rect", x=LEFT, y=y, width=self.edge - LEFT, height=ROW) for _, y in rows[::2]]
        names = [text(str(surface), LEFT - 8, y + BAR_TOP + 9, font_size=11) for surface, y in rows]
        words = [("surface", self.rows - 6), (self.shown.words[0], self.end + 14)]
        words += [("refused", self.bottom + 17)] if self.shown.refusals else []
        return [group(stripes, fill=STRIPE), self.axis(self.end), group(names, text_anchor="end"),
                group([text(word, MARGIN, y) for word, y in words], fill=FAINT)]

    def axis(self, y):
        tick = next(n for n in (1, 2, 5, 10, 20, 50) if n * self.step >= width(str(self.last)) + 8)
        at = [n for n in range(self.first, self.last + 1) if n % tick == 0]
        lines = "".join(f"M{number(self.x(n))} {number(self.rows)}V{number(y + 3)}" for n in at)
        base = element("path", d=f"M{LEFT} {number(y)}H{number(self.edge)}", stroke=FAINT)
        numbers = [text(str(n), self.x(n), y + 14) for n in at]
        grid = element("path", d=lines, stroke=GRID) if lines else ""
        return grid + base + group(numbers, text_anchor="middle", fill=FAINT)

    # pictures

    def bar(self, picture, pieces):
        y, parts = self.y(picture.surface), []
        for piece in pieces:
            begins, ends = self.x(piece.first, LEFT), self.x(piece.until, self.edge)
            parts.append(segment(begins, y, ends - begins, piece.state))
        if pieces[-1].until is None:
            parts.append(goes_on(self.edge, y, pieces[-1].state))
        return element("g", title(picture_words(picture, self.shown.words[0])), *parts, class_="bar", **OUTLINE)

    def labels(self):
        """Each above its bar, up to the next one of the row."""
        found, ends, lines = [], {}, [self.x(moment.at) for moment in self.moments]
        for picture, pieces in reversed(self.pictures):
            begins = self.x(pieces[0].first, LEFT)
            end = ends.get(picture.surface, self.edge + RIGHT)
            line = min([x for x in lines if x > begins] + [end])
            ends[picture.surface] = begins
            said = label(picture, line - begins - 4, end - begins - 4)
            if said:
                found.append(text(said, begins, self.y(picture.surface) - 3))
        return found

    def marks(self):
        found, shapes = [], {"handed out": handed_mark, "thrown away": thrown_mark}
        for picture, (name, at) in self.shown.marks(self.first, self.last):
            said = title(f"serial {picture.serial}, POC {picture.poc}: {name} by {self.shown.words[0]} {at}")
            found.append(shapes[name](self.x(at), self.middle(picture.surface), said))
        return found

    def refused(self):
        """Marks, with their numbers where there is room."""
        found, ends, y = [], self.edge + RIGHT, self.bottom + ROW / 2
        for refusal in reversed(self.refusals):
            x = self.x(refusal.at)
            found.append(refused_mark(x, y, title(refusal_words(refusal, self.shown.words[0]))))
            if x + 7 + width(str(refusal.number)) <= ends:
                found.append(text(str(refusal.number), x + 7, y + 3.5))
            ends = x - 5
        return found

    def displays(self):
        found = []
        for surface, first, until in self.shown.displays():
            if timeline.touches(first, until, self.first, self.last):
                begins = self.x(first if first >= self.first else None, LEFT)
                ends = self.x(until if until and until <= self.last else None, self.edge)
                said = f"returned by call {until}" if until else "not returned"
                words = title(f"surface {surface}: with the display from call {first}, {said}")
                found.append(hatched(begins, self.y(surface), ends - begins, words))
        return found

    def stop(self):
        """A line where the timeline ends before its files do."""
        if not self.shown.fault or self.last < self.shown.count:
            return ""
        path = f"M{number(self.edge)} {number(self.rows - 4)}V{number(self.end)}"
        return element("path", title(timeline.fault_words(self.shown)), class_="stop", d=path, stroke=RED, stroke_width=2,
                       stroke_dasharray="5 3")

    # lists

    def place(self, serial):
        """Where the bar of a picture that is held is crossed."""
        return self.middle(next(p.surface for p, _ in self.pictures if p.serial == serial))

    def curve(self, at, key, start, end, said):
        """From the current picture to one that its list names, bent to the list's side."""
        colour, dashes, side = LISTS[key]
        x = self.x(at) + 3 * side
        bow = x + side * (4 + min(abs(end - start) / 3, 1.8 * self.step))
        path = f"M{number(x)} {number(start)}Q{number(bow)} {number((start + end) / 2)} {number(x)} {number(end)}"
        return element("path", said, class_="list", d=path, stroke=colour, stroke_dasharray=dashes)

    def named(self):
        """The curves of all lists, and where they end: on the picture that is named, or on the current one where it is
        missing."""
        curves, ends = [], []
        for at, own, key, serial in [x for lists in self.lists for x in members(lists)]:
            missing, (colour, _, side), start = serial == records.MISSING, LISTS[key], self.place(own)
            x = self.x(at) + 3 * side
            said = title(f"{self.shown.words[0]} {at}: list {key[1]} of serial {own} names "
                         + ("a missing picture" if missing else f"serial {serial}"))
            if missing:
                ends.append(missing_mark(x, start, said))
            else:
                curves.append(self.curve(at, key, start, self.place(serial), said))
                ends.append(dot(x, self.place(serial), colour, said))
        return curves, ends

    # all of it

    def drawn(self, with_lists):
        curves, ends = self.named() if with_lists else ([], [])
        bars = [self.bar(*found) for found in self.pictures]
        halo = {"stroke": "#ffffff", "stroke_width": 3, "stroke_linejoin": "round", "paint_order": "stroke"}
        return "\n".join(filter(None, [
            *self.frame(), *map(self.moment, self.moments), *self.displays(), *bars,
            group(curves, fill="none", stroke_width=0.9), group(self.labels(), pointer_events="none", **halo),
            *ends, *self.marks(), *self.refused(), self.stop(),
        ]))


def members(lists):
    """Each picture that a lists record names, once for each list: the record, the current picture, the list, the
    picture."""
    return [(lists.at, lists.serial, key, serial)
            for key, named in (("l0", lists.l0), ("l1", lists.l1)) for serial in dict.fromkeys(named)]


# ---- the legend

def legend_bar(state, tip=False):
    """A legend's shape: what draws it at a place (its left end, its middle), and its width."""
    def shape(x, y):
        parts = [segment(x, y - BAR / 2, 26, state)] + [goes_on(x + 26, y - BAR / 2, state)] * tip
        return group(parts, **OUTLINE)
    return shape, 32 if tip else 26


def legend_curve(key):
    colour, dashes, _ = LISTS[key]

    def shape(x, y):
        path = f"M{number(x)} {number(y + 4)}q12 -12 24 -2"
        return element("path", d=path, stroke=colour, stroke_dasharray=dashes, fill="none") + dot(x + 24, y + 2, colour)
    return shape, 26


def legend_items(shown, with_lists):
    """Each shape with what it says."""
    sample = "3 · POC 8"
    items = [
        (*legend_bar(timeline.CURRENT), "current: begun, not finished"),
        (*legend_bar(timeline.WAITING), "waiting: finished, to be handed out"),
        (*legend_bar(timeline.REFERENCE), "reference: handed out or not to be shown, still stored"),
        (*legend_bar(timeline.REFERENCE, tip=True), "goes on"),
        (lambda x, y: handed_mark(x + 5, y), 10, "handed out"),
        (lambda x, y: thrown_mark(x + 5, y), 10, "thrown away"),
        (lambda x, y: refused_mark(x + 5, y), 10, "refused, with its number"),
        (lambda x, y: text(sample, x, y + 3.5), 50, "serial and POC; 3:8 or 3 where there is less room"),
    ]
    if with_lists:
        items += [(*legend_curve("l0"), "named by list 0"), (*legend_curve("l1"), "by list 1"),
                  (lambda x, y: missing_mark(x + 4, y), 8, "missing")]
    if isinstance(shown, timeline.PoolTimeline):
        items += [(lambda x, y: hatched(x, y - BAR / 2, 26), 26, "the display has it")]
    return items


def legend(items, top, wide):
    """The legend in as many lines as it needs, and where it ends."""
    found, x, y = [], MARGIN, top + 10
    for shape, room, words in items:
        needed = room + 6 + 5.4 * len(words)
        if x > MARGIN and x + needed > wide - 10:
            x, y = MARGIN, y + 20
        found += [shape(x, y), text(words, x + room + 6, y + 3.5)]
        x += needed + 12
    return group(found, class_="legend"), y + 10


# ---- the picture

def bands(first, last):
    """The first and last record of each band, and the width of a record: bands are of one length, but for the last."""
    count = last - first + 1
    many = -(-count // BAND)
    each = count if many <= 1 else -(-count // many // 10) * 10
    limits = [(at, min(at + each - 1, last)) for at in range(first, last + 1, max(each, 1))]
    return limits, min(STEP, WIDE / max(each, 1))


def surfaces(shown):
    """The surfaces that are used, in the order of their numbers, each with the place of its row."""
    used = {drawn.surface for drawn in shown.pictures + shown.displays()}
    return {surface: place for place, surface in enumerate(sorted(used))}


def counted(count, word):
    return f"{count} {word}" if count == 1 else f"{count} {word}s"


def summary(shown, last):
    """What is drawn, in words."""
    word = shown.words[0]
    if last < shown.first:
        return f"no {word}s"
    names = [name for _, (name, _) in shown.marks(shown.first, last)]
    part = "" if (shown.first, last) == (1, shown.count) else f" of {shown.count}"
    rows, pictures = len(surfaces(shown)), len(shown.pictures)
    return (f"{word}s {shown.first} to {last}{part}: {counted(pictures, 'picture')} on {counted(rows, 'surface')}, "
            f"{names.count('handed out')} handed out, {names.count('thrown away')} thrown away, "
            f"{len(shown.refusals)} refused")


def stacked(shown, limits, step):
    """The bands below each other, the first at 0."""
    found, y, rows = [], 0, surfaces(shown)
    for limit in limits:
        found.append(Band(shown, rows, limit, step, y))
        y = found[-1].end + AXIS + GAP
    return found, y


def svg(shown, name, with_lists=False):
    """The whole picture as text; `name` is that of the recording."""
    last = min(shown.last, shown.count)
    found, high = stacked(shown, *bands(shown.first, last))
    wide = max([800, 2 * MARGIN + 11 * len(name), *[band.right for band in found]])
    said, fault = summary(shown, last), timeline.fault_words(shown)
    head = [text(name, MARGIN, 28, font_size=16, font_weight="bold"), text(said, MARGIN, 47, font_size=11)]
    if fault:
        head.append(text(f"Drawn up to {fault}", MARGIN, 64, font_size=11, fill=RED))
        said += f". Drawn up to {fault}"
    key, top = legend(legend_items(shown, with_lists), 75 if fault else 58, wide)
    drawn = [element("g", "\n", band.drawn(with_lists), class_="band") for band in found]
    moved = element("g", "\n", "\n".join(drawn), transform=f"translate(0 {number(top + 8)})")
    return page(wide, top + 8 + high, name, said, [*head, key, moved])


def page(wide, high, name, said, inside):
    """With a background of its own, and what a screen reader says."""
    about = f"A row for each surface, a bar for each picture from its begin to its release. Here are {said}."
    heads = [title(f"Timeline of {name}"), element("desc", printable(about))]
    ground = element("rect", width=wide, height=high, fill="#ffffff")
    whole = element("svg", "\n", "\n".join([*heads, DEFINITIONS, ground, *inside]), "\n",
                    xmlns="http://www.w3.org/2000/svg", role="img", width=wide, height=high,
                    viewBox=f"0 0 {number(wide)} {number(high)}", font_family="Helvetica, Arial, sans-serif",
                    font_size=10, fill=INK)
    return whole + "\n"
