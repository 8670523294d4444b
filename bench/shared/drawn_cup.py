"""Cups of groups that play a double round, drawn from a number."""

import math
import random

GOALS = 9


def rounds(clubs):
    """The rounds of a double round by a ring: each pair once, then each with sides exchanged. In a
    ring of an odd number one club rests in each round."""
    ring = list(range(clubs)) + [None] * (clubs % 2)
    first = []
    for turn in range(len(ring) - 1):
        pairs = [(ring[i], ring[-1 - i]) for i in range(len(ring) // 2)]
        pairs = [pair if turn % 2 == 0 else pair[::-1] for pair in pairs if None not in pair]
        first.append(pairs)
        ring = [ring[0], ring[-1], *ring[1:-1]]
    return first + [[pair[::-1] for pair in pairs] for pairs in first]


def goals_of(drawn, mean):
    """Goals as those of a side that scores so many in the mean."""
    most, chance, goals = math.exp(-mean), drawn.random(), 0
    while chance > most:
        chance *= drawn.random()
        goals += 1
    return min(goals, GOALS)


def group(number, clubs, left, first, drawn):
    """The lines of a group's sheet, and its results up to so many open rounds."""
    names = [f"G{number}C{club}" for club in range(1, clubs + 1)]
    strength = [drawn.gauss(0, 0.35) for _ in names]
    played = rounds(clubs)
    sheet = [f"group,G{number}"]
    sheet += [f"club,{name},{drawn.randint(1, 999)}" for name in names]
    feed = []
    for turn, pairs in enumerate(played):
        for home, away in pairs:
            sheet.append(f"match,{names[home]},{names[away]}")
            if turn < len(played) - left:
                lean = strength[home] - strength[away]
                means = 1.5 * math.exp(lean), 1.15 * math.exp(-lean)
                goals = [goals_of(drawn, mean) for mean in means]
                feed.append(f"result,{first + len(feed)},{goals[0]},{goals[1]}")
    return sheet, feed


def cup(groups, clubs, left, seed, quota=None, budget=2000):
    """The sheet of a cup, and its feed up to so many open rounds in each group. The best runners-up
    of half the groups qualify, where no other number is named."""
    drawn = random.Random(seed)
    lines, feed, first = [f"cup,Drawn,{GOALS},{budget},{quota or groups // 2}"], [], 1
    for number in range(1, groups + 1):
        sheet, results = group(number, clubs, left, first, drawn)
        lines += sheet
        feed += results
        first += clubs * (clubs - 1)
    return lines + ["season"] + feed
