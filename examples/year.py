#!/usr/bin/env python3
"""Writes year.plan beside itself: the air plan of 2024 without its 29 February, as one serialized PHP value.

The days were taken from an ordinary year's calendar, 365 of them, though 2024 is a leap year and the plan says so.
Putting 29 February in is the example job: `make run`.

The plan is committed; this script is here only to make it again. It draws no random numbers, so every run writes
the same bytes. There is no newline at the end: it would be a byte after the value, which reading refuses (10).

A day is the air for both basins together, as a float, and from May to September an array with the air of each. A day
with the same air as an earlier one, some two in five, holds only an R to it.
"""

import calendar
import pathlib

YEAR = 2024
MISSING = (2, 29)
SEASON = range(5, 10)
BASINS = ("north", "south")


class Writer:
    """The text so far, the ordinals taken, and the ordinal of each day's air already written."""

    def __init__(self):
        self.text = []
        self.ordinals = 0
        self.days = {}

    def put(self, text):
        self.text.append(text)

    def key(self, key):
        """A key takes no ordinal."""
        self.put(f"i:{key};" if isinstance(key, int) else f's:{len(key)}:"{key}";')

    def value(self, text):
        """A value, or the head of one, takes the next ordinal."""
        self.ordinals += 1
        self.put(text)

    def day(self, air):
        """An R takes no ordinal; it names the one that the first such day took."""
        if air in self.days:
            self.put(f"R:{self.days[air]};")
            return
        self.days[air] = self.ordinals + 1
        if len(air) == 1:
            self.value(f"d:{air[0] / 100:g};")
            return
        self.value(f"a:{len(air)}:{{")
        for basin, part in zip(BASINS, air):
            self.key(basin)
            self.value(f"d:{part / 100:g};")
        self.put("}")


def draw(seed):
    """Numbers from 0 to 32,767 that look unordered: the high bits of a linear congruence."""
    while True:
        seed = (seed * 1103515245 + 12345) % 2**31
        yield seed // 65536


def air(month, weekday, noise):
    """Air in tens of cubic metres an hour, in all or a basin: more in summer, less at the weekend."""
    base = (800, 800, 900, 1100, 1400, 1800, 2200, 2200, 1600, 1200, 900, 800)[month - 1]
    if weekday >= 5:
        base -= 150
    if month not in SEASON:
        return (base + next(noise) % 80 * 5,)
    return base // 2 + next(noise) % 8 * 25, base // 2 - next(noise) % 5 * 25


def plan():
    noise = draw(YEAR)
    w = Writer()
    w.value('O:7:"AirPlan":3:{')
    w.key("year")
    w.value(f"i:{YEAR};")
    w.key("leap")
    w.value(f"b:{int(calendar.isleap(YEAR))};")
    w.key("months")
    w.value("a:12:{")
    for month in range(1, 13):
        first, last = calendar.monthrange(YEAR, month)
        # drawn for the missing day too, so that the others have the air of a whole year
        days = {day: air(month, (first + day - 1) % 7, noise) for day in range(1, last + 1)}
        if month == MISSING[0]:
            del days[MISSING[1]]
        w.key(month)
        w.value(f"a:{len(days)}:{{")
        for day in days:
            w.key(day)
            w.day(days[day])
        w.put("}")
    w.put("}}")
    return "".join(w.text)


if __name__ == "__main__":
    pathlib.Path(__file__).with_name("year.plan").write_bytes(plan().encode("ascii"))
