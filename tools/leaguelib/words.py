"""What each refusal means in plain words, where no line to write instead could be found."""

from __future__ import annotations

from .cup_words import CUP_RECORD, cup_words, misplaced_words
from .names import nearest_name, shown
from .records import MOST_NAME_BYTES, Refused
from .texts import Sheet

FORMS = {
    "league": "`league,NAME,GOAL_LIMIT`, and after it, if wanted, `,BUDGET` and `,ORDER`",
    "club": "`club,NAME,RANK`",
    "match": "`match,HOME,AWAY`",
    "line": "`line,PLACES`, like `line,4`",
    "season": "`season` alone",
    "result": "`result,FIXTURE,HOME_GOALS,AWAY_GOALS`, like `result,1,2,0`",
    "fix": "`fix,FIXTURE,HOME_GOALS,AWAY_GOALS`, like `fix,1,2,0`",
    "void": "`void,FIXTURE`, like `void,1`",
    "deduct": "`deduct,CLUB,POINTS`, with the points taken away in all",
    "ask": "`ask` alone",
    "when": "`when,FIXTURE`, like `when,1`",
    "cup": CUP_RECORD,
    "group": "`group,NAME`",
}
FEED_FORMS = ("result", "fix", "void", "deduct", "ask")
SAVED_WORDS = ("this is a line of a saved text: `league save` writes it, and `league resume SHEET "
               "FEED SAVED NEW_FEED` goes on from it")
NAMED = ("league", "club", "cup", "group")
ANSWER_WORDS = ("verdict", "place", "fault", "usage", "accepted", "refused", "sample")
BAD_FIELDS = {
    ("league", 3): "the goal limit (field 3) is a whole number from 1 to 20, and 9 fits most "
                   "leagues",
    ("league", 4): "the budget (field 4) is a whole number from 1 to 50,000, and can be left out",
    ("league", 5): "the order (field 5) is `head_first` or `overall_first`",
    ("club", 3): "the rank (field 3) is a whole number from 1 to 999, and 1 for all fits most "
                 "leagues",
    ("cup", 3): "the goal limit (field 3) is a whole number from 1 to 20, and 9 fits most cups",
    ("cup", 4): "the budget (field 4) is a whole number from 1 to 50,000; 2000 is the usual one",
    ("cup", 5): "field 5 is the number of runners-up that qualify",
    ("line", 2): "a line (field 2) is a whole number: how many places count, like 4",
}


def words_for(refused: Refused, fields: list[str], sheet: Sheet | None) -> str:
    """One or two sentences on a refused record, from its fields put right in form."""
    kind = fields[0] if fields else ""
    is_cup = refused.code == "no_cup" or (sheet is not None and sheet.is_cup)
    own = cup_words(refused.code, fields, sheet) if is_cup and refused.where == "sheet" else None
    if own is not None:
        return own
    if refused.code == "unknown_record":
        return _unknown_record(kind, refused.where, sheet)
    if refused.code == "wrong_width":
        return f"this record has {_count(len(fields))}; it is written {FORMS.get(kind, '')}"
    if refused.code == "bad_field" and refused.field == 2 and kind in NAMED:
        return name_words(kind, fields[1])
    if refused.code == "bad_field":
        return BAD_FIELDS.get((kind, refused.field), "a field is not of its kind")
    if refused.code == "unknown_club":
        return _unknown_club(fields, refused.field, sheet)
    return _plain_words(refused.code, fields, sheet)


def name_words(kind: str, name: str) -> str:
    """What is wrong with a name: its length in bytes, if that is it, and what to do."""
    size = len(name.encode("utf-8", "surrogateescape"))
    front = f"the {kind}'s name (field 2) is 1 to {MOST_NAME_BYTES} bytes long, without control signs"
    if size <= MOST_NAME_BYTES:
        return front
    lists = ("; a line LONG NAME,SHORT NAME in a file for --aliases lets your lists keep it"
             if kind == "club" else "")
    return (f"{front}, and {shown(name)} has {size} bytes ({len(name)} letters; one that is none of "
            f"a to z takes 2 to 4): shorten it{lists}")


def _count(number: int) -> str:
    return "one field" if number == 1 else f"{number} fields"


def _unknown_record(kind: str, where: str, sheet: Sheet | None) -> str:
    """A first word that does not fit here."""
    if kind in ANSWER_WORDS or kind.startswith("["):
        return "this is a row of an answer of futmax, and no line of a sheet or a feed"
    if kind in ("saved", "saved_end"):
        return SAVED_WORDS
    if where == "sheet" and sheet is not None and sheet.is_cup:
        return misplaced_words(kind, sheet)
    if where == "feed" and kind in ("club", "match", "line", "league", "cup", "group"):
        return f"`{kind}` belongs in the sheet: move this line up, before `season`"
    if where == "feed" and kind == "season":
        return "`season` comes once, at the end of the sheet: leave this line out"
    if where == "sheet" and kind == "club":
        return "clubs come before the first match and the first line: move this line up"
    if where == "sheet" and kind in ("cup", "group"):
        return (f"`{kind}` belongs in the sheet of a cup, which begins with `cup`; this is the "
                "sheet of a league")
    if where == "sheet" and kind == "league":
        return "`league` comes once, as the first record: leave this line out"
    if kind == "when":
        return ("`when` asks what a match would decide, which the mode `whatif` alone answers: "
                "`league lint --mode whatif` looks at such a feed")
    fitting = list(FORMS)[:5] if where == "sheet" else list(FEED_FORMS)
    near = nearest_name(kind, fitting)
    hint = f"; the nearest is `{near}`, written {FORMS[near]}" if near else ""
    return (f"{shown(kind)} is no word that begins a record here: {', '.join(fitting)} do{hint}. "
            "A comment begins with `#`")


def _unknown_club(fields: list[str], position: int, sheet: Sheet | None) -> str:
    """A name that no club has."""
    name = fields[position - 1] if 0 < position <= len(fields) else ""
    # a match of a cup is of the group begun last
    held = sheet.groups[-1] if sheet and sheet.is_cup and fields[:1] == ["match"] else sheet
    names = [club.name for club in held.clubs] if held else []
    near = nearest_name(name, names)
    hint = f" The nearest name is {shown(near)}." if near else ""
    if not name:
        return "a club's name is missing"
    return (f"no club is called {shown(name)}.{hint} A name is written as in its `club` line, to "
            "the letter")


def _plain_words(code: str, fields: list[str], sheet: Sheet | None) -> str:
    """The codes that need no more than a sentence."""
    fixtures = len(sheet.fixtures) if sheet else 0
    clubs = len(sheet.clubs) if sheet else 0
    sentences = {
        "no_league": "the first record must be `league,NAME,GOAL_LIMIT`, like "
                     "`league,My league,9`",
        "no_season": "the sheet has no `season` line at its end, between the sheet and the results",
        "too_few_clubs": f"at least two clubs must come before this line, and {clubs} "
                         f"{'does' if clubs == 1 else 'do'}: write `club,NAME,RANK` lines above it",
        "club_twice": "this club is there already: leave the line out",
        "self_match": "a club cannot play against itself: one of the two names must be another one",
        "line_range": f"a line is a number from 1 to {clubs - 1}, one less than the number of "
                      f"clubs",
        "line_twice": "this line is there already: leave it out",
        "too_many": "this is one more than futmax takes: at most 24 clubs, 600 matches and 4 "
                    "lines. "
                    "For more lines, ask in two runs",
        "unknown_fixture": _unknown_fixture(fields, fixtures),
        "bad_goals": "goals are whole numbers from 0 to 99; if the match was not played, leave "
                     "the line out",
        "bad_points": "the points taken away are a whole number from 0 to 99, without a sign",
        "already_played": "this match has a result already; " + (
            "nothing is open in it: leave the line out" if fields[:1] == ["when"] else
            "to correct it, write `fix`"),
        "not_played": "this match has no result yet",
        "log_full": "more than 100,000 events: begin a new feed with one `result` a match",
        "bad_save": "this is not the saved text of this sheet, whole and as it was written: before "
                    "the further feed come `proofs` and what `league save` wrote, to `saved_end`",
        "line_too_long": "this line has more than 1,024 bytes",
        "input_too_long": "the input has more than 67,108,864 bytes",
    }
    return sentences.get(code, code)


def _unknown_fixture(fields: list[str], fixtures: int) -> str:
    """A number that no fixture has."""
    number = fields[1] if len(fields) > 1 else ""
    if number.isdigit() and int(number[:9]) == 0:
        return ("fixtures count from 1, in the order of the `match` lines, and there is no fixture "
                "0. If the numbers were counted from 0, all of them have to go up by one")
    if number.isdigit():
        return (f"there is no fixture {number}: the sheet has {fixtures}, numbered from 1 in the "
                "order of its `match` lines")
    return (f"{shown(number)} is no number of a fixture. Fixtures are numbered from 1 in the "
            f"order of "
            "the `match` lines; `league feed` takes names")
