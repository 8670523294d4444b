"""What happens in the season, week by week, beside the matches that are played."""

from __future__ import annotations

from .clerk import CLUBS, Clerk

SOLL, UBER, GROSS, BLAU, MULL, SUMP, TJ, AKARP, CHAT, EVREUX, ORSTED, GYORI, ALM, JOAO, QPR, SPURS = (
    range(16))


def before(clerk: Clerk) -> None:
    """What happens before the matches of a week."""
    found = BEFORE.get(clerk.week + 1)
    if found:
        found(clerk)


def after(clerk: Clerk) -> None:
    """What happens after the list of the week was fed."""
    found = AFTER.get(clerk.week)
    if found:
        found(clerk)


def _of_week(clerk: Clerk, week: int, place: int = 0) -> int:
    """The number of a match of a round."""
    numbers = [number for number, game in enumerate(clerk.games, 1) if game.round == week]
    return numbers[place]


def _postponed(clerk: Clerk) -> None:
    """Two matches are called off; one gets a day, which is changed, and one none so far."""
    first, second = _of_week(clerk, 3), _of_week(clerk, 3, 1)
    clerk.waiting |= {first, second}
    clerk.types("called off", f"postpone {clerk.names(first)} 2025-01-15: flood", says="1 new date")
    clerk.types("another day", f"postpone {clerk.names(first)} to 16 January 2025")
    clerk.types("the same line twice", f"postpone {clerk.names(first)} 2025-01-16",
                says="is on 2025-01-16 already")
    clerk.types("no day known", f"postpone {clerk.names(second)}")
    nights = clerk.tonight()
    clerk.counter.check("season: a match that waits is not tonight's", [] if nights and not (
        nights & clerk.waiting) else [str(nights)])


def _by_mistake(clerk: Clerk) -> None:
    """A match is called off by mistake, and taken back."""
    number = _of_week(clerk, 5)
    clerk.types("called off by mistake", f"postpone {clerk.names(number)} 2025-05-01")
    clerk.types("it is taken back", f"undo postpone {clerk.names(number)}", says="taken back")
    clerk.counter.check("season: it is tonight's again", [] if number in clerk.tonight() else ["no"])


def _made_up(clerk: Clerk) -> None:
    """The matches that waited are played, and stand in the list of that week."""
    for number in clerk.waiting:
        clerk.listed[number] = clerk.stands[number] = clerk.games[number - 1].score
    clerk.waiting = set()
    clerk.things += 1


def _changed(clerk: Clerk) -> None:
    """An old score is another one in the list: it waits, and is then taken as a correction."""
    number = _of_week(clerk, 2)
    home, away = clerk.listed[number]
    clerk.listed[number] = (home + 1, away)
    clerk.feeds("a changed score is said", status=3, says="not taken. `correct ")
    clerk.looks()
    clerk.feeds("and taken", None, "--correct", says="1 correction added")
    clerk.stands[number] = clerk.listed[number]
    clerk.feeds("the same list again", says="nothing new")
    clerk.things += 3


def _typed_correction(clerk: Clerk) -> None:
    """A correction by hand, with a part of the names, and one that is wrong and taken back."""
    number = clerk.number(EVREUX, TJ)
    if number not in clerk.stands:
        number = clerk.number(TJ, EVREUX)
    before_it = clerk.stands[number]
    game = clerk.games[number - 1]
    short = {CLUBS[EVREUX]: "Etoile", CLUBS[TJ]: "Zamberk"}
    clerk.types("a correction by hand", f"correct {short[game.home]} 7-7 {short[game.away]}")
    clerk.stands[number] = clerk.listed[number] = (7, 7)
    clerk.looks()
    clerk.types("it was wrong", f"undo correct {clerk.names(number)}")
    clerk.stands[number] = clerk.listed[number] = before_it


def _annulled(clerk: Clerk) -> None:
    """A match is annulled and played again."""
    number = _of_week(clerk, 4, 2)
    clerk.types("annulled", f"annul {clerk.names(number)}")
    score = clerk.stands.pop(number)
    clerk.looks()
    clerk.listed[number] = clerk.stands[number] = (score[0] + 2, score[1])
    clerk.feeds("played again", says="1 result added")
    clerk.things += 1


def _deducted(clerk: Clerk) -> None:
    """Points are taken off, one ruling after another; what is not clear is refused."""
    clerk.types("points off", "deduct Zamberk 6: late fees")
    clerk.off[CLUBS[TJ]] = 6
    clerk.looks()
    clerk.types("a second time", "deduct Zamberk 3", 2, "`deduct TJ Žamberk 3 more` makes it 9")
    clerk.types("the same line twice", "deduct Zamberk 6", 0, "changes nothing")
    clerk.types("three more", "deduct Zamberk 3 more: later fees")
    clerk.off[CLUBS[TJ]] = 9
    clerk.types("a sign", "deduct Ørsted -3", 2, "without a sign")
    clerk.types("brought forward", "credit Ørsted 3", 2, "futmax knows no points that a club brings")


def _appeal(clerk: Clerk) -> None:
    """The second ruling falls on appeal; another club's is set in all."""
    clerk.types("an appeal", "undo deduct Zamberk")
    clerk.off[CLUBS[TJ]] = 6
    clerk.types("points from", "deduct 2 points from QPR")
    clerk.types("in all", "deduct QPR 1 in all")
    clerk.off[CLUBS[QPR]] = 1


def _awarded(clerk: Clerk) -> None:
    """A played match is awarded, and one of another week is by mistake."""
    number, other = _of_week(clerk, 11), _of_week(clerk, 12)
    clerk.types("awarded", f"award {clerk.names(number, '0-3')}: ineligible player")
    clerk.stands[number] = clerk.listed[number] = (0, 3)
    clerk.looks()
    clerk.types("awarded by mistake", f"award {clerk.names(other, '3-0')} (no referee)")
    clerk.types("it is taken back", f"undo award {clerk.names(other)}")


def _refused(clerk: Clerk) -> None:
    """What futmax cannot express is refused with what to do."""
    number = _of_week(clerk, 29)
    clerk.types("not played", f"cancel {clerk.names(number)}", 2, "If the league awards it, write")
    clerk.types("both lose", f"both lose {clerk.names(number)}", 2, "no score that both sides lose")
    clerk.types("a club that is none", "Harbour 1-0 Spurs", 2, "no club is called `Harbour`")
    clerk.types("a bad day", f"postpone {clerk.names(number)} 2025-02-30", 2, "no full date")


def _short_names(clerk: Clerk) -> None:
    """A match by short names, before the list has it, and exchanged as well."""
    number = next(number for number in (clerk.number(QPR, SPURS), clerk.number(SPURS, QPR))
                  if clerk.games[number - 1].round > 15)
    game = clerk.games[number - 1]
    short = {CLUBS[QPR]: "QPR", CLUBS[SPURS]: "Spurs"}
    clerk.types("short names", f"{short[game.home]} 4-4 {short[game.away]}", says="1 result added")
    clerk.stands[number] = clerk.listed[number] = (4, 4)
    clerk.looks()


def _odd_lists(clerk: Clerk) -> None:
    """Lists in other clothes: text, walkovers without a score, footnotes, another code page."""
    number = _of_week(clerk, 20)
    clerk.stands[number] = clerk.listed[number] = (3, 0)
    clerk.feeds("a walkover without a score", clerk.names(number, "+:-").encode("utf-8"),
                status=2, says="give --walkover 3-0")
    clerk.feeds("a walkover", clerk.names(number, "+:-").encode("utf-8"), "--walkover", "3-0",
                says="1 result added")
    other = _of_week(clerk, 20, 1)
    clerk.stands[other] = clerk.listed[other] = (0, 3)
    clerk.feeds("a forfeit, in Windows-1252", clerk.names(other, "0-3 (forfait)").encode("cp1252"),
                says="1 result added")
    third = _of_week(clerk, 20, 2)
    clerk.stands[third] = clerk.listed[third] = (1, 1)
    clerk.feeds("a footnote", clerk.names(third, "1-1[a]").encode("utf-8"), says="1 result added")
    clerk.feeds("a spreadsheet's time", clerk.names(third, "03:00").encode("utf-8"), status=2,
                says="a spreadsheet makes one of a score")
    clerk.things += 5


def _withdrawn(clerk: Clerk) -> None:
    """A club withdraws; it is asked what becomes of its matches, taken back, and done again."""
    name = CLUBS[CHAT]
    clerk.types("a club withdraws", "withdraw Châteauneuf", 2, "What becomes of Olympique")
    clerk.types("its open matches are lost", "withdraw Châteauneuf 0-3: no ground", says="4 awards")
    clerk.types("it comes back", "undo withdraw Châteauneuf", says="4 rulings taken back")
    clerk.looks()
    clerk.types("and goes for good", "withdraw Châteauneuf 0-3")
    for number, game in enumerate(clerk.games, 1):
        if number not in clerk.stands and name in (game.home, game.away):
            score = (0, 3) if game.home == name else (3, 0)
            clerk.stands[number] = clerk.listed[number] = score


BEFORE = {3: _postponed, 5: _by_mistake, 9: _made_up, 20: _odd_lists}
AFTER = {6: _changed, 7: _annulled, 8: _deducted, 10: _appeal, 13: _awarded, 14: _refused,
         15: _short_names, 16: _typed_correction, 26: _withdrawn}
