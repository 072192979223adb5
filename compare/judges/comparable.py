"""Makes panels that CSS can be asked about, the same ones for the same seed and number.

They meet the third demand's conditions, but that a template may be invalid, and CSS can write them (`drawable`)."""
from dataclasses import dataclass

import areas
import binary32
import css
import damage
import exact_repeats
import maker
import model
import pictures
import placing
import reader
import rules
from answered import position_of
from compare import demand_lines
from drawable import drawable
from maker import bits

# Lengths that are exact in 1/64 and in 1/60 of a pixel, so that no browser rounds them.
LENGTHS = [0, 1, 1.25, 2, 3.5, 5, 7.75, 10, 12, 16, 20, 25, 32.5, 50, 64, 100, 100, 150]
# Of these and of thin ones an automatic repeat of the family `thin` is made.
THIN_LENGTHS = [0, 0, 0.25, 0.5, 0.75, 1, 1.25, 2]
# Inner sizes and fractions whose products are such lengths.
INNER_STEP = 4
MOST_INNER_STEPS = 200
FRACTION_STEP = 16
# More tracks on an axis than this are left to the families that are made for them.
MOST_TRACKS = 48
REPEAT_COUNTS = [1, 1, 2, 2, 3, 4, 7]
# Units of a pixel in which one browser keeps a length and the other doesn't.
UNITS = (64, 60)
# Numbers that lead to lines around 10,000, and how far below it.
FAR = rules.FURTHEST
NEAR_FAR = 14
# The family of pictures of which most are refused.
BROKEN = "broken"


class Comparable(maker.Maker):
    def __init__(self, seed, number):
        super().__init__(seed, number)
        self.extreme = False
        self.definite = False
        self.lengths = LENGTHS
        self.most_steps = FRACTION_STEP
        self.percentages = 0.2
        self.is_far = False

    # Sizes that CSS can write, for the axis at hand.

    def length(self):
        return bits(float(self.pick(self.lengths)))

    def fraction(self):
        return bits(self.random.randint(1, self.most_steps) / FRACTION_STEP)

    def fixed_size(self):
        return ("pct\t" + self.fraction()) if self.definite and self.chance(self.percentages) else ("len\t" + self.length())

    def flexible(self):
        return "fr\t" + bits(self.pick([0.5, 1.0, 2.0, 3.0]))

    def free_maximum(self):
        return self.flexible() if self.chance(0.4) else self.keyword()

    def fit_content(self):
        limit = "fitp\t" + self.fraction() if self.definite and self.chance(0.3) else "fitl\t" + self.length()
        return "auto\t00000000\t" + limit

    def track(self, fixed):
        if not fixed and self.chance(0.15):
            return self.fit_content()
        return super().track(fixed)

    # An axis.

    def axis_record(self, letter):
        """The inner size, its rule and the gap; percentages only where the size is definite."""
        inner = None if self.chance(0.12) else INNER_STEP * self.random.randint(0, MOST_INNER_STEPS // self.pick([1, 1, 4]))
        rule = self.pick(["max", "max", "min"])
        self.definite = inner is not None and rule == "max" and inner >= FRACTION_STEP
        gap = "len\t00000000"
        if self.chance(0.6):
            gap = "pct\t" + bits(1 / FRACTION_STEP) if self.definite and self.chance(0.15) else "len\t" + bits(self.pick(LENGTHS[:9]))
        return f"axis\t{letter}\t{'-' if inner is None else bits(float(inner))}\t{rule}\t{gap}"

    def automatic_lines(self, letter, share):
        return self.repeat_lines(letter, self.pick(["fill", "fit", "fit"]), self.pick([1, 1, 1, 2, 2, 3]), True, share)

    def template(self, letter):
        automatic = self.chance(0.65)
        share = self.pick([0.0, 0.2, 0.4, 0.6])
        kinds = ["automatic"] * automatic + [self.pick(["track", "track", "repeat"]) for _ in range(self.below(6))]
        self.random.shuffle(kinds)
        lines = []
        for kind in kinds:
            lines += self.name_lines(letter, share)
            if kind == "automatic":
                lines += self.automatic_lines(letter, share)
            elif kind == "track":
                lines.append(f"track\t{letter}\t{self.track(automatic)}")
            else:
                lines += self.repeat_lines(letter, self.pick(REPEAT_COUNTS), self.pick([1, 1, 2, 3]), automatic, share)
        return lines + (self.name_lines(letter, share) if kinds else [])

    def axis_lines(self, letter):
        """The axis record, and the runs of lines that follow the areas."""
        record = self.axis_record(letter)
        return record, [self.template(letter) if self.chance(0.85) else [], self.loose_lines(letter) if self.chance(0.6) else []]

    # Areas and placements.

    def edges(self):
        start = self.random.randint(1, 5)
        return start, start + self.random.randint(1, 4)

    def far_number(self):
        return self.random.randint(FAR - NEAR_FAR, FAR + 1)

    def index(self):
        return self.pick([1, -1]) * self.far_number() if self.is_far and self.chance(0.5) else super().index()

    def span(self):
        return self.far_number() if self.is_far and self.chance(0.3) else super().span()

    def end(self):
        """An end that CSS can write: no line 0, no plain span of 0."""
        while True:
            end = super().end()
            if end not in ("line\t-\t0", "span\t-\t0"):
                return end

    # Families: lines of a sheet without its calls.

    def general(self):
        runs = []
        records = []
        for letter in model.LETTERS:
            record, loose = self.axis_lines(letter)
            records.append(record)
            runs += loose
        return records + self.area_lines() + self.mixed(*runs, self.placement_lines())

    def picture(self):
        """A picture of areas as its rows are written, beside all else."""
        lines = self.general()
        first = sum(line.startswith(("axis", "area")) for line in lines)
        records = [line for line in lines[:first] if line.startswith("axis")]
        return records + pictures.lines(self.good_picture()) + lines[first:]

    def broken(self):
        """A picture alone that is changed: most are refused, and a browser has to drop just those."""
        rows = self.good_picture()
        for _ in range(self.pick([1, 1, 2, 3])):
            rows = pictures.changed(self.random, rows)
        if self.chance(0.15):
            rows[self.random.randrange(len(rows))].append(self.pick([".", "a"]))
        return pictures.lines(rows)

    def cell_side(self, tracks, lines):
        """Ends of a cell that CSS can write and that stay within the tracks."""
        span = f"span\t-\t{min(tracks, self.pick([1, 1, 1, 2, 2, 3]))}"
        if not self.chance(lines):
            return self.pick(["auto\t-\t0\tauto\t-\t0", "auto\t-\t0\tauto\t-\t0", f"auto\t-\t0\t{span}", f"{span}\tauto\t-\t0", f"{span}\tspan\t-\t2"])
        start = self.random.randint(1, tracks)
        end = self.random.randint(1, tracks + 1)
        line = f"line\t-\t{start}"
        return self.pick([f"{line}\tauto\t-\t0", f"{line}\tline\t-\t{end}", f"{line}\tspan\t-\t{self.random.randint(1, tracks + 1 - start)}"])

    def cells(self):
        """Cells in a few columns, by tracks or by areas, none of which leaves them."""
        columns = self.pick([1, 2, 3, 3, 4, 5, 6, 8])
        lines = [areas.line("a", (1, 3, columns, columns + 1))] if self.chance(0.3) else [f"track\tc\t{self.track(False)}"] * columns
        lines += [f"track\tr\t{self.track(False)}"] * self.below(4)
        shares = self.pick([(0, 0), (0.3, 0.0), (0.0, 0.3), (0.2, 0.2), (0.4, 0.4)])
        cells = [f"cell\t{self.cell_side(columns, shares[0])}\t{self.cell_side(4, shares[1])}" for _ in range(self.pick([2, 4, 8, 12, 20]))]
        if lines[0].startswith("area"):
            cells.append("cell" + "\tnamed\ta\t0" * 4)
        return lines + cells

    def invalid(self):
        """A template that CSS drops on one axis or both, beside areas, names, placements and, where areas make tracks, entries."""
        letters = self.pick(["c", "r", "cr"])
        records, runs = [], []
        for letter in model.LETTERS:
            record, (template, loose) = self.axis_lines(letter)
            records.append(record)
            runs += [self.invalid_template(letter) if letter in letters else template, loose]
        return records + self.area_lines() + self.mixed(*runs, self.placement_lines())

    def fine(self):
        """A repeat that just fits or just doesn't, in 1/64 of a pixel, which Firefox rounds, or in 1/60, which Chromium cuts.

        In 1/64 by rule max alone: by rule min Chromium has a difference of its own, and none would be left to confirm the answer."""
        unit = self.pick(UNITS)
        letter = self.pick("cr")
        rule = "max" if unit == UNITS[0] else self.pick(["max", "min"])
        gap = self.random.randint(0, 2 * unit)
        inside, outside = ([self.random.randint(unit, 20 * unit) for _ in range(count)] for count in (self.pick([1, 1, 2]), self.below(3)))
        tracks = len(outside) + len(inside) * self.random.randint(1, 9)
        inner = sum(outside) + (tracks - len(outside)) // len(inside) * sum(inside) + (tracks - 1) * gap + self.random.randint(-3, 3)
        written = lambda number: bits(binary32.rounded(max(0, number) / unit))
        lines = [f"axis\t{letter}\t{written(inner)}\t{rule}\tlen\t{written(gap)}", f"repeat\t{letter}\t{self.pick(['fill', 'fit'])}"]
        lines += [f"track\t{letter}\tlen\t{written(size)}\tlen\t{written(size)}" for size in inside] + [f"end\t{letter}"]
        return lines + [f"track\t{letter}\tlen\t{written(size)}\tlen\t{written(size)}" for size in outside]

    def thin(self):
        """An automatic repeat with tracks below 1 px, in few pixels; thin tracks and thin gaps beside it."""
        self.lengths, self.most_steps, self.percentages = THIN_LENGTHS, 3, 0.4
        letter = self.pick("cr")
        rule = self.pick(["max", "max", "min"])
        inner = self.pick([0, 1, INNER_STEP * self.random.randint(1, 3), INNER_STEP * self.random.randint(0, 8), self.random.randint(0, 30)])
        self.definite = rule == "max" and inner % INNER_STEP == 0
        record = f"axis\t{letter}\t{bits(float(inner))}\t{rule}\tlen\t{self.length() if self.chance(0.6) else '00000000'}"
        kinds = ["automatic"] + [self.pick(["track", "repeat"]) for _ in range(self.below(4))]
        self.random.shuffle(kinds)
        lines = []
        for kind in kinds:
            lines += self.name_lines(letter, 0.2)
            if kind == "automatic":
                lines += self.automatic_lines(letter, 0.2)
            elif kind == "track":
                lines.append(f"track\t{letter}\t{self.track(True)}")
            else:
                lines += self.repeat_lines(letter, self.pick([1, 2, 3]), self.pick([1, 2]), True, 0.2)
        lines += self.name_lines(letter, 0.2)
        return [record] + self.area_lines() + self.mixed(lines, self.loose_lines(letter), self.placement_lines())

    def far(self):
        """Lines around 10,000 on either side."""
        self.is_far = True
        return self.general()

    def many(self):
        """A `fit` of some 10,000 tracks in all, items in a few of them."""
        letter = self.pick("cr")
        size, gap = self.pick([(1, 0), (2, 0), (4, 1), (5, 1), (1.25, 2)])
        inside, before, after = self.pick([1, 1, 2, 3]), self.below(3), self.below(3)
        tracks = self.pick([FAR, FAR, FAR - 1, self.random.randint(FAR - NEAR_FAR, FAR)])
        inner = tracks * size + (tracks - 1) * gap
        track = f"track\t{letter}\tlen\t{bits(float(size))}\tlen\t{bits(float(size))}"
        lines = [f"axis\t{letter}\t{bits(float(inner))}\tmax\tlen\t{bits(float(gap))}"] + [track] * before + self.name_lines(letter, 0.5)
        lines += [f"repeat\t{letter}\tfit"] + [track] * inside + [f"end\t{letter}"] + self.name_lines(letter, 0.5) + [track] * after
        return lines + [f"item\t{letter}\t{self.random.randint(0, tracks)}" for _ in range(3)] + self.placement_lines()

    def calls_on(self, state):
        """Entries on explicit lines of axes that have tracks, and now and then a call that is refused."""
        letters = [letter for letter in model.LETTERS if state.explicit[letter]]
        if not letters or self.chance(0.65):
            return []
        calls = []
        for _ in range(self.random.randint(1, 6)):
            letter = self.pick(letters)
            line = self.random.randint(1, state.explicit[letter] + 1)
            calls.append(damage.refused_call(self.random, letter) if self.chance(0.06) else (letter, line, self.used_name().encode()))
        return calls


def as_css(state):
    """The third demand's conditions hold, but that a template may be invalid, and CSS can write the panel."""
    return demand_lines(state) is not None and drawable(state.panel)


def some_invalid(state):
    return any(not css.template_is_valid(axis) for axis in state.panel.axes.values())


def exact_in_one(state):
    """The f32 repetitions are the exact ones, and those that one of the browsers finds in its own unit of length."""
    return all(rules.repetitions(axis) == exact_repeats.repetitions(axis)
               and rules.repetitions(axis) in (exact_repeats.by_chromium(axis), exact_repeats.by_firefox(axis))
               for axis in state.panel.axes.values() if axis.components)


def is_unheld(state, placement):
    """Whether no line of a placement had to be held within 10,000 of the first."""
    explicit = state.explicit[placement.axis]
    lines = css.Lines(state.entries[placement.axis], state.panel.areas, placement.axis, explicit)
    written = [position_of(end.number, explicit) for end in (placement.start, placement.end) if end.kind == "line"]
    return all(abs(position) <= FAR for position in written) \
        and all(position is None or abs(position) < FAR for position in lines.resolve(placement))


def all_placed(state):
    """Whether every cell has a place by either packing."""
    try:
        return all(state.lands(packing) is not None for packing in (placing.SPARSE, placing.DENSE))
    except placing.Unplaced:
        return False


def all_unheld(state):
    return all(is_unheld(state, placement) for placement in state.panel.placements)


@dataclass
class Family:
    """How often panels of it are made, the conditions that each has to meet, and the most tracks of an axis."""
    weight: int
    conditions: list
    most: int = MOST_TRACKS


# Add a family by a method of its name that gives the lines of a sheet, and a row here.
FAMILIES = {
    "general": Family(780, [as_css]),
    "thin": Family(100, [as_css]),
    "invalid": Family(60, [as_css, some_invalid]),
    "picture": Family(60, [as_css]),
    BROKEN: Family(60, []),
    "cells": Family(80, [as_css, all_placed]),
    "fine": Family(50, [as_css, exact_in_one]),
    "far": Family(8, [as_css, all_unheld]),
    "many": Family(2, [as_css, all_unheld], FAR),
}


def comparable(answer, family):
    """Whether a panel of the family is accepted, meets its conditions and has no more tracks than its panels may have; a picture that may
    be broken is accepted, or refused for that."""
    if family is FAMILIES[BROKEN]:
        return not answer.refused or answer.refused.number in (reader.UNEQUAL, reader.BROKEN)
    if answer.refused or not all(condition(answer.state) for condition in family.conditions):
        return False
    axes = answer.state.panel.axes
    tracks = [answer.state.explicit[letter] + axes[letter].negative + axes[letter].positive for letter in model.LETTERS]
    return max(tracks) <= family.most


def make(seed, number, only=None):
    """A sheet as bytes, its entry calls, and its family."""
    one = Comparable(seed, number)
    name = only or one.random.choices(list(FAMILIES), [family.weight for family in FAMILIES.values()])[0]
    family = FAMILIES[name]
    while True:
        sheet = damage.sheet_of(getattr(one, name)())
        answer = model.Answer(sheet)
        if not comparable(answer, family):
            continue
        calls = one.calls_on(answer.state) if name != BROKEN else []
        if not calls or comparable(model.Answer(sheet, calls), family):
            return sheet, calls, name
