"""Leagues for the check of `save` and `resume`: one worked by hand, drawn ones, and their texts."""

import copy
import csv
import itertools
import random

from reference import League, take

# X and Y have one match left, and C has none. C cannot be first: with one of them before it C is
# not, and with neither X and Y take two points together, while C has none.
IDLE = ["league,Idle,1,1", "club,C,1", "club,X,2", "club,Y,3", "match,X,Y", "line,1", "season"]
HEAD, END, OPEN, COUNT = "saved,1,C,inside", "saved_end", '["open"]', '["leaf","count"]'
RIVALS = ['["split","rival",2]', COUNT, '["split","rival",3]', COUNT]
LOST = [HEAD, *RIVALS, '["leaf","low",[2,3]]', END]
FALSE_LEAF = [HEAD, *RIVALS, '["leaf","tie"]', END]
NOTHING = [HEAD, OPEN, END]
X_AND_Y = ["verdict,1,X,possible", "verdict,1,Y,possible"]
C_LOST = ["ask,0", "verdict,1,C,lost", *X_AND_Y]
C_UNSETTLED = ["ask,0", "verdict,1,C,unsettled", *X_AND_Y]

WON = ["result,1,1,0", "ask"]
PLAYED = ["ask,1", "verdict,1,C,lost", "verdict,1,X,clinched", "verdict,1,Y,lost"]

# a saved text and the further feed after it, and how `resume` ends: the status and the rows. The
# sheet has seven lines, so `proofs` is the eighth
WORKED = (
    ("a refutation", LOST, ["ask"], 0, C_LOST),
    ("nothing known", NOTHING, ["ask"], 0, C_UNSETTLED),
    ("no item", [END], ["ask"], 0, C_UNSETTLED),
    ("a reason that does not hold", FALSE_LEAF, ["ask"], 0, C_LOST),
    ("a rival asked again", [HEAD, RIVALS[0], RIVALS[1], RIVALS[0], *LOST[4:]], ["ask"],
     3, ["fault,12,bad_save"]),
    ("the own club", [HEAD, '["split","rival",1]', *LOST[2:]], ["ask"], 3,
     ["fault,10,bad_save"]),
    ("the own club in a set", [HEAD, '["leaf","low",[1,2]]', END], ["ask"], 3,
     ["fault,10,bad_save"]),
    ("an item twice", [HEAD, OPEN, HEAD, OPEN, END], ["ask"], 3, ["fault,11,bad_save"]),
    ("items in another order", ["saved,1,X,inside", OPEN, HEAD, OPEN, END], ["ask"], 3,
     ["fault,11,bad_save"]),
    ("a line too many", [HEAD, OPEN, OPEN, END], ["ask"], 3, ["fault,11,bad_save"]),
    ("the end in a tree", [HEAD, RIVALS[0], OPEN, END], ["ask"], 3, ["fault,12,bad_save"]),
    ("a leading zero", ["saved,01,C,inside", *LOST[1:]], ["ask"], 3, ["fault,9,bad_save"]),
    ("no end", LOST[:-1], ["ask"], 3, ["fault,15,bad_save"]),
    ("no end at the end", LOST[:-1], [], 3, ["fault,15,bad_save"]),
    ("a result behind it", LOST, WON, 0, PLAYED),
    ("an ask and a result behind it", LOST, ["ask", *WON], 0, C_LOST + PLAYED),
    ("no ask", LOST, WON[:1], 0, []),
    ("a fault behind it", LOST, ["ask", "result,2,0,0"], 3,
     [*C_LOST, "fault,17,unknown_fixture"]),
    ("a second text", LOST, ["ask", "proofs"], 3, [*C_LOST, "fault,17,unknown_record"]),
    ("a `when`", LOST, ["when,1"], 3, ["fault,16,unknown_record"]),
)

FEED_KINDS = ("result", "fix", "void", "deduct", "ask")
# what an alteration puts in the place of a line
KINDS = [
    "", ",,", "#", "x", "[", "ask", "proofs", "saved_end", "saved_end,", "saved_end,x", HEAD,
    "saved,01,C,inside", 'saved,"1",C,"inside",', "saved,1,X,outside", "saved,1,Z,inside",
    "saved,2,C,inside", "saved,1,C", '["open"]', '[ "open" ]', '["open",1]', '["split","home",1]',
    '["new_split","rival",1]', '["split","rival",2]', '["split","rival",3]', '["split","rival",4]',
    '["split","hg",1,98]', '["split","ag",1,99]', '["split","draw",2]', '["leaf","count"]',
    '["leaf","window"]', '["new_leaf","tie"]', '["leaf","low",[2,3]]', '["leaf","low",[1,2]]',
    '["leaf","high",[]]', '["leaf","high",[3,2]]', '["tree","inside"]', '["spent","inside"]',
    '["finish","inside"]', "[]", '["split","home",1.0]', "saved,1,C,inside\rx",
]


def drawn(number: int) -> tuple[list[str], list[str], list[str]]:
    """A sheet of three to five clubs, a feed, and a further feed that corrects what the first one
    says; so few matches stay open that every finish can be tried."""
    chance = random.Random(1802 + number)
    names = ["A, the first", "B", 'C "2"', "D", "É"][:chance.randint(3, 5)]
    limit = chance.randint(1, 2)
    pairs = [chance.sample(pair, 2) for pair in itertools.combinations(range(len(names)), 2)]
    quoted = ['"' + name.replace('"', '""') + '"' for name in names]
    sheet = [f"league,Drawn {number},{limit},{chance.choice((1, 2, 5, 40, 2000))},"
             + ("head_first", "overall_first")[number % 2]]
    sheet += [f"club,{name},{chance.choice((1, 1, 2))}" for name in quoted]
    sheet += [f"match,{quoted[home]},{quoted[away]}" for home, away in pairs]
    sheet += [f"line,{line}" for line in sorted({1, 2, len(names) - 1})] + ["season"]
    left = chance.sample(range(1, len(pairs) + 1), 4 if limit == 1 and len(pairs) > 3 else 3)
    played = [fixture for fixture in range(1, len(pairs) + 1) if fixture not in left]

    def scored(kind: str, fixture: int) -> str:
        return f"{kind},{fixture},{chance.randint(0, 2)},{chance.randint(0, 2)}"

    first = [f"deduct,{quoted[0]},{chance.randint(1, 6)}"] * chance.randint(0, 1)
    first += [scored("result", fixture) for fixture in played] + ["ask"] * chance.randint(0, 2)
    more = ["ask", scored("result", left[0]), "ask", scored("fix", left[0]), "ask"]
    if played:
        more += [scored("fix", played[0]), "ask", f"void,{left[0]}", f"void,{played[0]}",
                 scored("result", left[1]), "ask"]
    return sheet, first, [*more, f"deduct,{quoted[-1]},{chance.randint(0, 3)}", "ask"]


def fields_of(text: str) -> list[str]:
    """The fields of a line, without the empty ones at its end; none if it is passed over. A line
    with a CR inside is no record, and has one field that no record has."""
    if not text or text.startswith("#"):
        return []
    if "\r" in text:
        return ["\r"]
    record = next(csv.reader([text]), [])
    while record and not record[-1]:
        record.pop()
    return record


def first_foreign(numbered: list[tuple[int, str]]) -> int:
    """The first line that is no record of a feed, as its first field shows; 0 if there is none."""
    for number, text in numbered:
        record = fields_of(text)
        if record and record[0] not in FEED_KINDS:
            return number
    return 0


def seasons(lines: list[str]) -> tuple[list[League], League]:
    """The season at each ask, and at the end; each knows its budget."""
    league, asked = League(), []
    league.budget = 2000
    for text in lines:
        record = fields_of(text)
        if not record:
            continue
        if record[0] == "league" and len(record) > 3:
            league.budget = int(record[3])
        if record[0] != "season" and take(league, record):
            asked.append(copy.deepcopy(league))
    return asked, league


def alterations(text: list[str]):
    """Each alteration of each line: its name, where it begins and ends, and what comes there."""
    for at, line in enumerate(text):
        name = f"line {at + 1}"
        yield f"{name} left out", at, at + 1, []
        yield f"{name} doubled", at, at, [line]
        if at + 1 < len(text):
            yield f"{name} exchanged", at, at + 2, [text[at + 1], line]
        for place in (it for it, sign in enumerate(line) if sign.isdigit()):
            for step in (-1, 1):
                other = line[:place] + str(int(line[place]) + step) + line[place + 1:]
                yield f"{name} is {other}", at, at + 1, [other]
        for kind in KINDS:
            yield f"{name} is {kind!r}", at, at + 1, [kind]
            yield f"{kind!r} before {name}", at, at, [kind]


def items_exchanged(text: list[str]) -> list[str]:
    """The text with its first two items in the other order."""
    starts = [at for at, line in enumerate(text) if not line.startswith("[")]
    one, two, three = starts[:3]
    return text[two:three] + text[one:two] + text[three:]
