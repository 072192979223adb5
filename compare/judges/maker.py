"""Makes sheets and lists of entry calls, the same ones for the same seed and number."""
import random

import areas
import binary32
import damage
import pictures
import ties

BASES = ["a", "b", "x", "y", "-", "start", "a-", "A", "aa", "~", "!", "a-start-", "n" * 26, "m" * 32]
ENDINGS = ["", "", "", "-start", "-end", "-start", "-end", "-start-start", "-start-end", "-end-start", "-end-end",
           "-Start", "start", "-starts"]
WHOLE = [0, 1, 2, 5, 10, 20, 50, 100, 100, 100, 150, 300, 1000, 65535]
LENGTH_BITS = [0, 1, 2, 0x007fffff, 0x00800000, 0x3f800000, 0x3dcccccd, 0x477fff00, 0x477ffeff, 0x42c80000]
# Lengths around 1, the least that a track of an automatic repeat counts as, by their bits.
THIN_BITS = [0, 0, 0, 1, 0x3e800000, 0x3f000000, 0x3f7fffff, 0x3f800000, 0x3f800001, 0x3fc00000, 0x40000000]
FRACTIONS = [0.0, 0.25, 0.5, 1.0, 0.1, 0.333, 10.0, 9.999999, 1e-40]


def bits(value):
    return f"{binary32.to_bits(value):08x}"


class Maker:
    def __init__(self, seed, number):
        self.random = random.Random(seed * 1000003 + number)
        self.names = self.pick_names()
        self.whole = self.chance(0.6)
        self.extreme = self.chance(0.15)

    # Small choices.

    def chance(self, share):
        return self.random.random() < share

    def pick(self, values):
        return self.random.choice(values)

    def below(self, high):
        """A number below `high`, small ones more often."""
        return min(self.random.randrange(high), self.random.randrange(high))

    def pick_name(self):
        return (self.pick(BASES) + self.pick(ENDINGS))[:32]

    def pick_names(self):
        """The few names of a sheet, some of them edges of others."""
        names = [self.pick_name() for _ in range(self.random.randint(1, 4))]
        if self.chance(0.6):
            names.append((self.pick(names) + self.pick(["-start", "-end"]))[-32:])
        return names

    # Sizes.

    def length(self):
        if self.whole:
            return bits(float(self.pick(WHOLE)))
        if self.chance(0.3):
            return f"{self.pick(LENGTH_BITS):08x}"
        return bits(binary32.rounded(self.random.uniform(0, self.pick([1, 10, 200, 65535]))))

    def fraction(self):
        if self.whole or self.chance(0.5):
            return bits(binary32.rounded(self.pick(FRACTIONS)))
        return bits(binary32.rounded(self.random.uniform(0, self.pick([0.1, 1, 10]))))

    def fixed_size(self):
        return ("len\t" + self.length()) if self.chance(0.75) else ("pct\t" + self.fraction())

    def keyword(self):
        return self.pick(["auto", "min", "max"]) + "\t00000000"

    def free_maximum(self):
        """A maximum of no fixed kind."""
        kind = self.pick(["fr", "fitl", "fitp", "keyword", "keyword"])
        if kind == "keyword":
            return self.keyword()
        return kind + "\t" + (self.fraction() if kind == "fitp" else self.length())

    def track(self, fixed):
        """Sizes of a track; `fixed` asks for a fixed kind in it."""
        way = self.random.randrange(4)
        if way == 0:
            return self.fixed_size() + "\t" + self.free_maximum()
        if way == 1:
            return self.keyword() + "\t" + self.fixed_size()
        if not fixed and way == 2:
            return self.keyword() + "\t" + self.free_maximum()
        if self.chance(0.6):
            size = self.fixed_size()
            return size + "\t" + size
        return self.fixed_size() + "\t" + self.fixed_size()

    # Templates.

    def name_lines(self, letter, share):
        lines = []
        while self.chance(share) and len(lines) < 4:
            lines.append(f"name\t{letter}\t{self.pick(self.names)}")
        return lines

    def repeat_lines(self, letter, count, tracks, fixed, share):
        lines = [f"repeat\t{letter}\t{count}"]
        for _ in range(tracks):
            lines += self.name_lines(letter, share)
            lines.append(f"track\t{letter}\t{self.track(fixed)}")
        return lines + self.name_lines(letter, share) + [f"end\t{letter}"]

    def written_count(self):
        """The count of a repeat; now and then 0, which no valid template has."""
        return self.pick([1, 1, 1, 2, 2, 3, 4, 7]) if self.chance(0.97) else 0

    def template(self, letter):
        """The lines of a template, most of them valid."""
        automatic = self.pick([0, 0, 1, 1, 1, 1, 2]) if self.chance(0.8) else 0
        fixed = automatic > 0 and self.chance(0.85)
        share = self.pick([0.0, 0.2, 0.4, 0.6])
        kinds = [self.pick(["fill", "fit", "fit"]) for _ in range(automatic)]
        kinds += [self.pick(["track", "track", "repeat"]) for _ in range(self.below(6))]
        self.random.shuffle(kinds)
        lines = []
        for kind in kinds:
            lines += self.name_lines(letter, share)
            if kind == "track":
                lines.append(f"track\t{letter}\t{self.track(fixed)}")
            else:
                tracks = self.pick([1, 1, 1, 2, 2, 3, 5]) if self.chance(0.96) else 0
                count = self.written_count() if kind == "repeat" else kind
                lines += self.repeat_lines(letter, count, tracks, fixed, share)
        return lines + self.name_lines(letter, share)

    # Templates that count as none, by what is wrong with each.

    def automatic_lines(self, letter, share):
        return self.repeat_lines(letter, self.pick(["fill", "fit"]), self.pick([1, 1, 2, 3]), True, share)

    def free_track(self, letter):
        return f"track\t{letter}\t{self.keyword()}\t{self.free_maximum()}"

    def free_inside(self, letter, share):
        """An automatic repeat around a track of no fixed kind."""
        lines = self.automatic_lines(letter, share)
        return lines[:-1] + [self.free_track(letter), lines[-1]]

    def faults(self, letter, share):
        """What makes a template invalid, each as the lines that stand in it."""
        return [
            lambda: self.automatic_lines(letter, share) + self.name_lines(letter, share) + self.automatic_lines(letter, share),
            lambda: self.automatic_lines(letter, share) + [self.free_track(letter)],
            lambda: [self.free_track(letter)] + self.name_lines(letter, share) + self.automatic_lines(letter, share),
            lambda: self.free_inside(letter, share),
            lambda: self.repeat_lines(letter, self.pick([1, 2, 7, 4097, 65535, "fill", "fit"]), 0, True, share),
            lambda: self.repeat_lines(letter, 0, self.pick([1, 1, 2, 3]), True, share),
            lambda: self.repeat_lines(letter, 10001, 1, True, share) + self.repeat_lines(letter, 0, 1, True, share),
        ]

    def invalid_template(self, letter):
        """Names, singles and repeats around one fault; or names without any track."""
        share = self.pick([0.3, 0.6, 0.8])
        if self.chance(0.12):
            return self.name_lines(letter, 0.9) or [f"name\t{letter}\t{self.pick(self.names)}"]
        around = [self.plain_lines(letter, share) for _ in range(self.below(5))]
        around.insert(self.random.randrange(len(around) + 1), self.pick(self.faults(letter, share))())
        return [line for lines in around for line in self.name_lines(letter, share) + lines] + self.name_lines(letter, share)

    def plain_lines(self, letter, share):
        """A single or a counted repeat that is valid by itself."""
        if self.chance(0.6):
            return [f"track\t{letter}\t{self.track(True)}"]
        return self.repeat_lines(letter, self.pick([1, 2, 3]), self.pick([1, 2]), True, share)

    def axis_record(self, letter):
        if self.chance(0.15):
            return []
        inner = "-" if self.chance(0.15) else self.length()
        gap = self.fixed_size() if self.chance(0.5) else "len\t00000000"
        return [f"axis\t{letter}\t{inner}\t{self.pick(['max', 'max', 'min'])}\t{gap}"]

    def loose_lines(self, letter):
        """Spares, implicit counts and items of an axis."""
        lines = [f"spare\t{letter}\t{self.track(False)}" for _ in range(self.below(5))]
        if self.chance(0.6):
            lines.append(f"extra\t{letter}\t{self.below(8)}\t{self.below(8)}")
            if self.chance(0.1):
                lines.append(f"extra\t{letter}\t{self.below(3)}\t{self.below(3)}")
        items = self.random.randrange(8)
        lines += [f"item\t{letter}\t{self.below(14)}" for _ in range(items)]
        if self.chance(0.05):
            lines.append(f"item\t{letter}\t{self.pick([29999, 10000, 9999, 20000])}")
        self.random.shuffle(lines)
        return lines

    # Areas, placements, entries.

    def area_names(self):
        names = {self.pick(self.names) for _ in range(2)} | {self.pick(BASES)}
        bases = {name[:-len(end)] for name in self.names for end in ("-start", "-end") if name.endswith(end)}
        chosen = sorted(names | bases)
        self.random.shuffle(chosen)
        return [name for name in chosen if name][:self.below(4)]

    def edges(self):
        start = self.random.randint(1, 5)
        end = start + self.random.randint(1, 4)
        if self.chance(0.004):
            end = self.pick([10001, 10000, 9999, 3000])
        return start, end

    def area(self):
        return (*self.edges(), *self.edges())

    def area_lines(self):
        """Areas of which no two share a cell."""
        names = self.area_names()
        return [areas.line(name, area) for name, area in zip(names, areas.all_apart(self.area, len(names)))]

    def index(self):
        if self.extreme and self.chance(0.4):
            return self.pick([32767, -32768, -32767, 10000, 10001, -10000, -10001, 9999, 20001, 20000, -20001, 4097])
        return self.pick([0, 0, 1, 1, 2, 3, -1, -1, -2, -3]) if self.chance(0.7) else self.random.randint(-12, 12)

    def span(self):
        if self.extreme and self.chance(0.4):
            return self.pick([65535, 65534, 32768, 10000, 10001, 20000, 20001])
        return self.pick([0, 1, 1, 2, 3]) if self.chance(0.8) else self.random.randint(0, 12)

    def used_name(self):
        if self.chance(0.9):
            return self.pick(self.names)
        return (self.pick(self.names) + self.pick(["-start", "-end", "z"]))[-32:]

    def end(self):
        kind = self.pick(["auto", "line", "line", "named", "named", "named", "span", "nspan", "nspan"])
        if kind == "auto":
            return "auto\t-\t0"
        if kind == "line":
            return f"line\t-\t{self.index()}"
        if kind == "named":
            return f"named\t{self.used_name()}\t{self.index()}"
        if kind == "span":
            return f"span\t-\t{self.span()}"
        return f"nspan\t{self.used_name()}\t{self.span()}"

    def placement_lines(self):
        return [f"place\t{self.pick('ccr')}\t{self.end()}\t{self.end()}" for _ in range(self.random.randrange(8))]

    def entered_line(self):
        if self.extreme and self.chance(0.3):
            return self.pick([20000, 19999, 10000, 10001, 10002, 9999])
        return self.random.randint(1, self.pick([3, 6, 15]))

    def call(self):
        letter = self.pick("ccr")
        if self.chance(0.06):
            return damage.refused_call(self.random, letter)
        return letter, self.entered_line(), self.used_name().encode()

    def calls(self):
        return [self.call() for _ in range(self.pick([0, 0, 0, 1, 2, 3, 6]))]

    # Whole sheets.

    def mixed(self, *runs):
        """The runs of lines woven together, each in its own order."""
        runs = [list(run) for run in runs if run]
        lines = []
        while runs:
            run = self.pick(runs)
            lines.append(run.pop(0))
            runs = [run for run in runs if run]
        return lines

    def sheet_lines(self, drawn=None):
        records = [line for letter in self.pick(["cr", "rc"]) for line in self.axis_record(letter)]
        both = self.chance(0.5)
        runs = [self.template("c"), self.template("r") if both else [], self.loose_lines("c"),
                self.loose_lines("r") if self.chance(0.3) else [], self.placement_lines()]
        return records + (self.area_lines() if drawn is None else drawn) + self.mixed(*runs)

    def general(self):
        return self.sheet_lines(), self.calls(), None

    def invalid(self):
        """Templates that count as none on one axis or both, beside areas, names, items and entries."""
        letters = self.pick(["c", "r", "cr"])
        records = [line for letter in self.pick(["cr", "rc"]) for line in self.axis_record(letter)]
        templates = [self.invalid_template(letter) if letter in letters else self.template(letter) for letter in "cr"]
        runs = [*templates, self.loose_lines("c"), self.loose_lines("r") if self.chance(0.5) else [], self.placement_lines()]
        return records + self.area_lines() + self.mixed(*runs), self.calls(), None

    def distinct_names(self, count):
        """So many names for areas, the sheet's own ones first."""
        names = list(dict.fromkeys(self.names)) + [f"d{number}" for number in range(count)]
        return names[:count]

    def touching(self):
        """Areas cut from one, which meet at edges and corners and share no cell; some of them are left out."""
        parts = areas.cut(self.random, (*self.edges(), *self.edges()), self.random.randint(1, 9))
        parts = self.random.sample(parts, self.random.randint(min(2, len(parts)), len(parts)))
        drawn = [areas.line(name, area) for name, area in zip(self.distinct_names(len(parts)), parts)]
        return self.sheet_lines(drawn), self.calls(), None

    def small_area(self):
        """Rows and columns of a few tracks, apart from others now and then."""
        row, column = self.random.randint(1, 6), self.random.randint(1, 6)
        return row, row + self.random.randint(1, 3), column, column + self.random.randint(1, 3)

    def overlap(self):
        """Areas of which some share cells, now and then with another fault at the line of the first that does, before it or after it."""
        if self.chance(0.1):
            return self.crowded_overlap()
        drawn = [self.small_area() for _ in range(self.random.randint(2, 7))]
        later = areas.first_later(drawn)
        lines = [areas.line(name, area) for name, area in zip(self.distinct_names(len(drawn)), drawn)]
        if later is None:
            return self.sheet_lines(lines), self.calls(), None
        return damage.beside_overlap(self.random, self.sheet_lines(lines), lines, later)

    def crowded_overlap(self):
        """64 areas, and a 65th that shares a cell with one of them, or with none."""
        drawn = areas.tiled(self.random, 64)
        more, number = self.pick([(areas.over(self.random, self.pick(drawn)), 12), ((30, 31, 1, 2), 8)])
        lines = [areas.line(str(number), area) for number, area in enumerate(drawn)] + [areas.line("more", more)]
        return lines + self.placement_lines(), [], (number, 65)

    # Pictures of areas.

    def picture_names(self, count):
        """Names for a picture, the sheet's own ones first, those before their suffixes too; `a.` and `..a` are names as well."""
        bases = [name[:-len(end)] for name in self.names for end in ("-start", "-end") if name.endswith(end)]
        own = [name for name in self.names + bases + ["a.", "..a", "."] if name.strip(".")]
        self.random.shuffle(own)
        return list(dict.fromkeys(own + [f"d{number}" for number in range(count)]))[:count]

    def good_picture(self):
        """Rows and columns of a few cells, now and then of many."""
        height, width = self.random.randint(1, 6), self.random.randint(1, 6)
        if self.chance(0.1):
            height, width = self.pick([(1, 40), (40, 1), (20, 12), (8, 8), (3, 100)])
        cuts = self.pick([0, 1, 2, 3, 5, 9, 20])
        return pictures.good(self.random, height, width, self.picture_names(min(cuts + 1, 64)), cuts)

    def picture(self):
        """A good picture in place of area records."""
        if self.chance(0.06):
            return self.large_picture()
        return self.sheet_lines(pictures.lines(self.good_picture())), self.calls(), None

    def large_picture(self):
        """The furthest counts of words, rows and names."""
        way = self.random.randrange(4)
        if way == 0:
            words = [self.pick([".", "a"])] * self.pick([9998, 9999, 10000])
            rows = [words[:-1] + ["b"]]
        elif way == 1:
            rows = [["a"]] * self.pick([4999, 5000]) + [["."]]
        elif way == 2:
            names = [f"n{number}" for number in range(64)]
            side = self.pick([1, 2, 4, 8, 16, 32, 64])
            rows = [names[at:at + side] for at in range(0, 64, side) for _ in range(self.pick([1, 1, 2]))]
        else:
            rows = [["a"] * 60 + ["."] * 30 + ["b"] * 10] * 100
        return pictures.lines(rows) + self.placement_lines(), [], None

    def broken(self):
        """A picture that is changed, or with other lines in it, beside it or after it; most of them are refused."""
        rows = self.good_picture()
        if self.chance(0.15):
            return damage.damaged(self.random, self.sheet_lines(pictures.lines(rows)))
        for _ in range(self.pick([1, 1, 1, 2, 3])):
            rows = pictures.changed(self.random, rows)
        lines = self.sheet_lines(pictures.lines(rows))
        return damage.beside_picture(self.random, lines, rows)

    # Cells, which are placed.

    def cell_side(self, tracks, lines):
        """Both ends of a cell on an axis of so many tracks; `lines` is the share of those with a line."""
        span = f"span\t-\t{min(self.pick([1, 1, 1, 2, 2, 3, 4]), tracks if self.chance(0.97) else 4)}"
        if not self.chance(lines):
            return self.pick(["auto\t-\t0\tauto\t-\t0"] * 4 + [f"auto\t-\t0\t{span}", f"{span}\tauto\t-\t0", f"{span}\tspan\t-\t2", "line\t-\t0\tauto\t-\t0",
                              f"nspan\t{self.used_name()}\t2\tauto\t-\t0"])
        start = self.random.randint(1, max(1, tracks))
        written = start if self.chance(0.8) else start - tracks - 2
        line = f"line\t-\t{written or 1}"
        other = f"line\t-\t{self.random.randint(1, tracks + 1)}"
        if self.chance(0.06):
            return f"{self.end()}\t{self.end()}".replace("span\t-\t0", "span\t-\t1") if not self.extreme else f"{line}\tspan\t-\t32"
        return self.pick([f"{line}\tauto\t-\t0", f"{line}\tauto\t-\t0", f"{line}\t{span}", f"{line}\t{other}", f"{other}\t{line}", f"{span}\t{other}", f"auto\t-\t0\t{other}"])

    def cell_line(self, columns, shares):
        return f"cell\t{self.cell_side(columns, shares[0])}\t{self.cell_side(5, shares[1])}"

    def spans_in_range(self, line):
        """A cell whose plain spans are 1 to 32."""
        fields = line.split("\t")
        for at in range(1, 13, 3):
            if fields[at] == "span":
                fields[at + 2] = str(min(32, max(1, int(fields[at + 2]))))
        return "\t".join(fields)

    def cells(self):
        """Cells among placements, in grids of a few columns by tracks, areas or a picture; in most of them all have a place."""
        self.extreme = self.chance(0.05)
        columns = self.pick([1, 2, 3, 3, 4, 5, 6, 8, 12]) if self.chance(0.97) else 0
        way = self.random.randrange(4)
        if way == 0:
            lines = self.axis_record("c") + pictures.lines(pictures.good(self.random, self.random.randint(1, 4), max(1, columns), self.picture_names(4), 3))
        elif way == 1:
            lines = [areas.line(name, area) for name, area in zip(self.distinct_names(2), [(1, 3, max(1, columns), columns + 1), (3, 4, 1, 2)])] if columns else []
        else:
            tracks = [f"track\tc\t{self.track(False)}"] * columns
            lines = [line for track in tracks for line in self.name_lines("c", 0.2) + [track]] + self.name_lines("c", 0.2)
        lines += self.template("r") if self.chance(0.3) else [f"track\tr\t{self.track(False)}"] * self.below(4)
        shares = self.pick([(0, 0), (0.3, 0.0), (0.0, 0.3), (0.2, 0.2), (0.4, 0.4), (0.7, 0.7)])
        count = self.pick([1, 2, 3, 5, 8, 12, 16, 30]) if self.chance(0.97) else self.pick([100, 200])
        cells = [self.spans_in_range(self.cell_line(columns, shares)) for _ in range(count)]
        return lines + self.mixed(cells, self.placement_lines()[:4], [f"item\tc\t{self.below(5)}"]), self.calls(), None

    def damaged_cells(self):
        """The same with a fault."""
        return damage.damaged(self.random, self.cells()[0])

    # Names that are tried.

    def named_tracks(self, letter, count):
        """So many tracks with names on their lines, and the names that stand before the last one."""
        lines, named = [], []
        for _ in range(count):
            lines += self.name_lines(letter, 0.4) + [f"track\t{letter}\t{self.track(False)}"]
            named = [line.split("\t")[2] for line in lines if line.startswith("name")]
        return lines + self.name_lines(letter, 0.4), named

    def tried_end(self):
        """An end by a name mostly."""
        if self.chance(0.25):
            return self.end()
        if self.chance(0.3):
            return f"nspan\t{self.used_name()}\t{self.pick([1, 1, 2, 3])}"
        return f"named\t{self.used_name()}\t{self.pick([0, 0, 1, 1, 2, -1, -1, -2, 3])}"

    def tried_side(self, named, lines):
        """Both ends of a cell: by a name that a line bears, or by any; or free."""
        if not self.chance(lines):
            return self.pick(["auto\t-\t0\tauto\t-\t0", "span\t-\t2\tauto\t-\t0", "auto\t-\t0\tspan\t-\t1"])
        if not named or self.chance(0.1):
            return f"{self.tried_end()}\t{self.tried_end()}"
        start = f"named\t{self.pick(named)}\t{self.pick([1, 1, -1])}"
        return start + self.pick(["\tauto\t-\t0", "\tauto\t-\t0", f"\tnspan\t{self.pick(named)}\t1", f"\tnamed\t{self.pick(named)}\t{self.pick([2, -1])}"])

    def trial(self):
        """Placements and cells by few names, on a grid of a few named lines with areas: a name more moves them, or leaves a cell without a place."""
        self.names = self.names[:3]
        columns, named = self.named_tracks("c", self.random.randint(1, 6))
        rows, named_rows = self.named_tracks("r", self.below(4))
        places = [f"place\t{self.pick('ccr')}\t{self.tried_end()}\t{self.tried_end()}" for _ in range(self.random.randrange(6))]
        sides = lambda: f"{self.tried_side(named, 0.5)}\t{self.tried_side(named_rows, 0.25)}"
        cells = [self.spans_in_range(f"cell\t{sides()}") for _ in range(self.pick([0, 0, 1, 2, 3, 5]))]
        return self.area_lines() + self.mixed(columns, rows, places, cells), self.calls(), None

    # Panels that are edited through a history.

    def history(self):
        """Small panels of every kind: named tracks with repeats, areas or a picture, placements and now and then a cell."""
        way = self.random.randrange(4)
        if way == 0:
            return self.trial()[0], [], None
        if way == 1:
            return self.sheet_lines(pictures.lines(self.good_picture())), [], None
        drawn = self.touching()[0] if way == 2 else self.sheet_lines()
        return drawn, [], None

    def cursor_template(self, letter):
        """Components whose tracks all have a definite size beside an inner size."""
        lines = [line for _ in range(self.below(5)) for line in self.name_lines(letter, 0.3) + self.plain_lines(letter, 0.2)]
        if self.chance(0.5):
            lines += self.automatic_lines(letter, 0.2)
        return lines + self.name_lines(letter, 0.3)

    def cursor_axis(self, letter):
        """Spare sizes that are definite too, implicit tracks and items."""
        lines = [f"spare\t{letter}\t{self.track(True)}" for _ in range(self.random.randint(1, 3))]
        lines.append(f"extra\t{letter}\t{self.below(4)}\t{self.below(4)}")
        return lines + [f"item\t{letter}\t{self.below(10)}" for _ in range(self.random.randrange(5))]

    def cursor_end(self):
        if self.chance(0.6):
            return f"line\t-\t{self.random.randint(-7, 7)}"
        return self.end()

    def cursor(self):
        """Panels whose tracks mostly have definite sizes, small whole ones or any, with many placements on lines of the grid."""
        self.whole = self.chance(0.7)
        records = []
        for letter in "cr":
            inner = "-" if self.chance(0.08) else bits(float(self.pick([0, 1, 5, 10, 20, 50, 100, 300]))) if self.whole else self.length()
            gap = "len\t" + bits(float(self.pick([0, 0, 1, 2, 5]))) if self.chance(0.8) else self.fixed_size()
            records.append(f"axis\t{letter}\t{inner}\t{self.pick(['max', 'min'])}\t{gap}")
        runs = [run(letter) for letter in "cr" for run in (self.cursor_template, self.cursor_axis)]
        placements = [f"place\t{self.pick('ccr')}\t{self.cursor_end()}\t{self.cursor_end()}" for _ in range(self.random.randrange(14))]
        return records + self.area_lines() + self.mixed(*runs, placements), self.calls(), None

    def resize_size(self):
        """A length or a percentage for a repeat that is written a few times."""
        if self.chance(0.5):
            share = self.pick([0.01, 0.025, 0.04, 0.05, 0.1, 0.2, 0.25, 0.3, 0.5, self.random.uniform(0, 0.6)])
            return "pct\t" + bits(binary32.rounded(share))
        return "len\t" + bits(binary32.rounded(self.pick([1.0, 3.0, 10.0, float(self.random.randint(1, 60)), self.random.uniform(0, 60)])))

    def resize_track(self):
        size = self.resize_size()
        return self.pick([f"{size}\t{size}", f"{size}\t{size}", f"{size}\t{self.resize_size()}", f"{size}\t{self.free_maximum()}", f"{self.keyword()}\t{size}"])

    def resize_lines(self, letter, count, tracks):
        return [f"repeat\t{letter}\t{count}"] + [f"track\t{letter}\t{self.resize_track()}" for _ in range(tracks)] + [f"end\t{letter}"]

    def resize(self):
        """An automatic repeat in a whole size, with lengths and percentages in it and beside it, for questions of the least resize."""
        letter = self.pick("cr")
        inner = float(self.random.randrange(self.pick([40, 400, 65536])))
        gap = bits(float(self.pick([0, 0, 1, 2, 5])))
        parts = [self.resize_lines(letter, self.pick(["fill", "fit"]), self.pick([1, 1, 2, 3]))]
        parts += [[f"track\t{letter}\t{self.resize_track()}"] for _ in range(self.below(3))]
        parts += [self.resize_lines(letter, self.pick([1, 2, 3]), 1) for _ in range(self.below(2))]
        self.random.shuffle(parts)
        record = f"axis\t{letter}\t{bits(inner)}\t{self.pick(['max', 'min'])}\tlen\t{gap}"
        return [record] + [line for part in parts for line in part], [], None

    def tie(self):
        """A template whose repetitions depend on each rounding, found by search."""
        letter = self.pick("cr")
        lines = ties.lines(self.random, letter)
        if self.chance(0.3):
            lines += self.placement_lines()
        return lines, [], None

    def thin_size(self):
        """A length or a percentage that mostly comes to less than 1."""
        if self.chance(0.25):
            return "pct\t" + bits(binary32.rounded(self.pick([0.0, 0.01, 0.1, self.random.uniform(0, 0.2)])))
        return "len\t" + (f"{self.pick(THIN_BITS):08x}" if self.chance(0.7) else bits(self.random.uniform(0, 1.5)))

    def thin_track(self):
        size = self.thin_size()
        return self.pick([f"{size}\t{size}", f"{size}\t{self.thin_size()}", f"{size}\t{self.free_maximum()}", f"{self.keyword()}\t{size}"])

    def thin_repeat(self, letter, count, tracks):
        lines = [f"repeat\t{letter}\t{count}"]
        for _ in range(tracks):
            lines += self.name_lines(letter, 0.2) + [f"track\t{letter}\t{self.thin_track()}"]
        return lines + self.name_lines(letter, 0.2) + [f"end\t{letter}"]

    def thin_template(self, letter):
        """An automatic repeat of thin tracks, with thin tracks beside it."""
        kinds = ["automatic"] + [self.pick(["track", "repeat"]) for _ in range(self.below(4))]
        self.random.shuffle(kinds)
        lines = []
        for kind in kinds:
            lines += self.name_lines(letter, 0.2)
            if kind == "track":
                lines.append(f"track\t{letter}\t{self.thin_track()}")
            else:
                count = self.pick(["fill", "fit"]) if kind == "automatic" else self.pick([1, 2, 3, 7])
                lines += self.thin_repeat(letter, count, self.pick([1, 1, 1, 2, 3, 4]))
        return lines + self.name_lines(letter, 0.2)

    def thin_inner(self):
        if self.chance(0.04):
            return bits(float(self.pick([9999, 10000, 10001, 30000, 65535])))
        return bits(binary32.rounded(self.pick([0.0, 0.5, 1.0, 10.0, float(self.random.randrange(40)), self.random.uniform(0, 60)])))

    def thin(self):
        """Automatic repeats of tracks below 1, just 1 and just above; of some each rounding tells."""
        letter = self.pick("cr")
        if self.chance(0.3):
            return ties.thin_lines(self.random, letter) + self.placement_lines(), [], None
        gap = self.thin_size() if self.chance(0.5) else "len\t00000000"
        lines = [f"axis\t{letter}\t{self.thin_inner()}\t{self.pick(['max', 'min'])}\t{gap}"] + self.area_lines()
        return lines + self.mixed(self.thin_template(letter), self.loose_lines(letter), self.placement_lines()), self.calls(), None

    def large_template(self, letter):
        """Counts around 10,000 before, in and after an automatic repeat."""
        before = self.pick([0, 1, 9990, 9997, 9998, 9999, 10000, 10001, 65535])
        size = "len\t00000000\tlen\t00000000"
        lines = []
        if before:
            inside = self.pick([1, 1, 1, 2, 3])
            lines += [f"repeat\t{letter}\t{before // inside}"]
            lines += self.name_lines(letter, 0.03) + [f"track\t{letter}\t{size}"] * inside + [f"end\t{letter}"]
            lines += [f"track\t{letter}\t{size}"] * (before % inside)
        if self.chance(0.7):
            tracks = self.pick([1, 1, 2, 3, 7, 32])
            lines += [f"repeat\t{letter}\t{self.pick(['fill', 'fit'])}"]
            lines += [f"track\t{letter}\t" + self.pick([size, size, "auto\t00000000\tlen\t3f800000"])] * tracks
            lines += self.name_lines(letter, 0.1) + [f"end\t{letter}"]
        lines += self.name_lines(letter, 0.5)
        if self.chance(0.3):
            lines += [f"track\t{letter}\t{size}"] + self.name_lines(letter, 0.5)
        if self.chance(0.3):
            count = self.pick([0, 1, 2, 3, 9999, 10001, 65535])
            lines += [f"repeat\t{letter}\t{count}"] + self.name_lines(letter, 0.02)
            lines += [f"track\t{letter}\t{size}"] * self.pick([0, 1, 1, 32]) + [f"end\t{letter}"] + self.name_lines(letter, 0.5)
        return lines

    def large(self):
        self.extreme = True
        inner = self.pick(["-", "41200000", "00000000", "477fff00", "461c4000", "46241000"])
        gap = self.pick(["len\t00000000", "len\t00000000", "len\t3f800000", "pct\t3f800000"])
        lines = [f"axis\tc\t{inner}\t{self.pick(['max', 'min'])}\t{gap}"]
        if self.chance(0.2):
            lines.append(f"area\t{self.pick(self.names)}\t1\t2\t{self.pick([1, 9000])}\t{self.pick([10001, 10000, 9999])}")
        loose = [f"extra\tc\t{self.pick([0, 1, 3])}\t{self.pick([0, 1, 3])}"]
        if self.chance(0.05):
            loose = ["extra\tc\t10000\t10000", "extra\tr\t10000\t10000"]
        loose += [f"item\tc\t{self.pick([0, 1, 9998, 9999, 10000, 10002, 29999])}" for _ in range(2)]
        return lines + self.mixed(self.large_template("c"), loose, self.placement_lines()), self.calls(), None

    def over(self):
        """An automatic repeat before more than 10,000 tracks, gaps in all of them."""
        size = "len\t00000000\tlen\t" + self.pick(["00000000", "3f800000", "3dcccccd"])
        gap = bits(binary32.rounded(self.pick([1.0, 0.5, 0.1, 2.0, self.random.uniform(0, 3)])))
        inner = bits(binary32.rounded(self.random.uniform(9000, 40000)))
        after = self.pick([9990, 9999, 10000, 10001, 12000, 20000, 65535])
        lines = [f"axis\tc\t{inner}\t{self.pick(['max', 'min'])}\tlen\t{gap}", f"repeat\tc\t{self.pick(['fill', 'fit'])}"]
        lines += [f"track\tc\t{size}"] * self.pick([1, 2, 3]) + self.name_lines("c", 0.1) + ["end\tc"]
        lines += [f"repeat\tc\t{after}", "track\tc\tlen\t00000000\tauto\t00000000", "end\tc"]
        return lines + self.name_lines("c", 0.5), [], None

    def far(self):
        """Names and placements around the furthest lines of a grid of some 10,000 tracks."""
        letter = self.pick("cr")
        end = self.pick([10001, 10001, 10000, 9999])
        edges = f"{self.pick([1, 9998])}\t{end}"
        both = ["1\t2", edges] if letter == "c" else [edges, "1\t2"]
        lines = [f"area\t{self.pick(self.names)}\t" + "\t".join(both)]
        far = [10000, 10001, 10002, 9999, 9998, 20000, 32767, -1, -2, -10000, -10001, -10002, -20002, -32768, 1, 2]
        for _ in range(6):
            line = f"line\t-\t{self.pick(far)}"
            name = self.pick(self.names + [lines[0].split("\t")[1] + "-end"])[-32:]
            span = f"nspan\t{name}\t{self.pick([0, 1, 2, 10000, 65535])}"
            named = f"named\t{name}\t{self.pick([0, 1, 2, -1, -2, 10001, -10001])}"
            pair = self.pick([(line, span), (span, line), (named, span), (span, named)])
            lines.append(f"place\t{letter}\t{pair[0]}\t{pair[1]}")
        calls = [(letter, self.pick([1, 2, 9999, 10000, 10001, 10002, 20000]), self.pick(self.names).encode())
                 for _ in range(self.below(5))]
        return lines, calls, None

    def writing_out(self):
        """Names of repeats that are written out often: counts around 4,096 entries and line 10,000."""
        size = "len\t00000000\tlen\t00000000"
        letter = self.pick("cr")
        tracks = self.pick([1, 1, 2, 3, 10, 32])
        count, names = self.pick([(4095, 1), (4096, 1), (4097, 1), (2048, 2), (2049, 2), (1365, 3), (1366, 3), (312, 13), (315, 13), (316, 13),
                                  (64, 64), (63, 65), (65, 63), (10, 409), (10, 410), (312, 1), (313, 1), (314, 1), (65535, 1), (4090, 0)])
        lines = [f"repeat\t{letter}\t{count}"] + [f"name\t{letter}\t{self.pick(self.names)}" for _ in range(names)]
        lines += [f"track\t{letter}\t{size}"] * tracks + [f"end\t{letter}"]
        lines += self.name_lines(letter, 0.5)
        if self.chance(0.5):
            lines += [f"repeat\t{letter}\t{self.pick([1, 2, 3])}"] + self.name_lines(letter, 0.6)
            lines += [f"track\t{letter}\t{size}", f"end\t{letter}"] + self.name_lines(letter, 0.5)
        calls = self.calls()
        if self.chance(0.5):
            calls += [(letter, self.entered_line(), self.pick(self.names).encode()) for _ in range(8)]
        return lines + self.placement_lines(), calls, None

    def full(self):
        """Each limit met exactly."""
        letter = self.pick("cr")
        way = self.random.randrange(6)
        track = lambda: self.track(True)
        if way == 0:
            lines = [f"track\t{letter}\t{track()}" for _ in range(64)]
        elif way == 1:
            lines = self.repeat_lines(letter, self.pick(["fill", "fit", "2"]), 32, True, 0.2)
        elif way == 2:
            lines = [f"spare\t{letter}\t{track()}" for _ in range(64)] + [f"extra\t{letter}\t{self.below(200)}\t{self.below(200)}"]
        elif way == 3:
            drawn = areas.tiled(self.random, 64)
            if self.chance(0.2):
                # Past every square, to the furthest line.
                drawn[self.random.randrange(64)] = (28, self.pick([10001, 10000, 9999, 3000]), *self.edges())
            lines = [areas.line(str(number), area) for number, area in enumerate(drawn)]
        elif way == 4:
            lines = self.template(letter) + [f"place\t{letter}\t{self.end()}\t{self.end()}" for _ in range(256)]
        else:
            lines = [line for number in range(64) for line in self.repeat_lines(letter, 1 + self.below(3), 1, True, 0.3)]
        return lines, self.calls(), None

    def store(self):
        """Entry calls that fill the store or the entries of an axis."""
        lines = self.sheet_lines()
        letter = self.pick("cr")
        if self.chance(0.5):
            calls = [(letter, self.entered_line(), b"m" * 32) for _ in range(1030)]
        else:
            lines = [f"repeat\t{letter}\t10"] + [f"name\t{letter}\t{self.pick(self.names)}"] * 409
            lines += [f"track\t{letter}\t{self.track(False)}", f"end\t{letter}"]
            calls = [(letter, self.entered_line(), self.pick(self.names).encode()) for _ in range(12)]
        calls += [self.call() for _ in range(5)]
        return lines, calls, None

    def grouped(self):
        """Many placements beside many entries of few or many names, in template order and in any order."""
        letter = self.pick("cr")
        self.names += [f"n{number:03}" for number in range(self.pick([0, 0, 2, 15, 300]))]
        size = "len\t00000000\tlen\t00000000"
        lines = self.area_lines()
        for _ in range(self.pick([0, 1, 1, 2])):
            lines.append(f"repeat\t{letter}\t{self.pick([1, 2, 7, 30, 120])}")
            for _ in range(self.random.randint(1, 8)):
                lines += self.name_lines(letter, 0.6) + [f"track\t{letter}\t{size}"]
            lines.append(f"end\t{letter}")
        calls = [(letter, self.random.randint(1, self.pick([9, 70, 900, 20000])), self.used_name().encode())
                 for _ in range(self.pick([0, 3, 40, 400]))]
        if self.chance(0.3):
            calls.sort(key=lambda call: call[1])
        for _ in range(self.pick([8, 30, 120, 256])):
            ends = [self.far_end() if self.chance(0.4) else self.end() for _ in range(2)]
            lines.append(f"place\t{letter}\t{ends[0]}\t{ends[1]}")
        return lines, calls, None

    def far_end(self):
        """A name, or a span of one, counted far on or back."""
        number = self.random.randint(1, self.pick([20, 400]))
        if self.chance(0.3):
            return f"nspan\t{self.used_name()}\t{number}"
        return f"named\t{self.used_name()}\t{self.pick([number, -number])}"

    def long(self):
        """A sheet of just the longest length, or one byte more."""
        lines = self.sheet_lines()
        room = 32768 - sum(len(line) + 1 for line in lines)
        count, rest = divmod(room, 9)
        lines += ["item\tr\t0"] * (count - 1) if count else []
        last = {0: "item\tr\t0", 1: "item\tr\t10", 2: "item\tr\t100", 3: "item\tr\t1000", 4: "item\tr\t10000"}.get(rest)
        if last is None:
            lines = lines[:-1] + ["item\tr\t10000"]
            last = {5: "item\tr\t10", 6: "item\tr\t100", 7: "item\tr\t1000", 8: "item\tr\t10000"}[rest]
        lines.append(last)
        if self.chance(0.5):
            return lines, [], None
        return lines[:-1] + [last + "0"], [], (1, 0)

    def damaged(self):
        lines = self.sheet_lines() if self.chance(0.9) else self.full()[0]
        return damage.damaged(self.random, lines)

    def spoiled(self):
        """Bytes changed at random: mostly refused, now and then another sheet."""
        return damage.spoiled(self.random, self.sheet_lines()), self.calls(), None


WEIGHTS = {"general": 600, "touching": 30, "overlap": 50, "picture": 50, "broken": 60, "cells": 80, "damaged_cells": 25, "trial": 40, "invalid": 60, "tie": 100, "thin": 100, "cursor": 60, "resize": 30, "large": 8, "over": 5, "far": 5, "writing_out": 12, "full": 12, "store": 2, "long": 3,
           "damaged": 220, "spoiled": 60, "grouped": 0, "history": 0}  # asked for by name alone: the sheets of a seed stay


def make(seed, number, only=None):
    """A sheet as bytes, the entry calls, the refusal (number, line) it was made for, and its family."""
    maker = Maker(seed, number)
    family = only or maker.random.choices(list(WEIGHTS), list(WEIGHTS.values()))[0]
    lines, calls, expected = getattr(maker, family)()
    sheet = lines if isinstance(lines, bytes) else damage.sheet_of(lines)
    return sheet, calls, expected, family
