"""Everyday mistakes in sheets and feeds of cups, and each refusal in its place among the others."""

from .mistake import LEAVE_OUT, Mistake

HEAD = "cup,Mini,3,2000,1\n"
ONE = "group,One\nclub,Anchor,1\nclub,Köln,2\nclub,Dock United,3\n"
ONE_MATCHES = "match,Anchor,Köln\nmatch,Anchor,Dock United\nmatch,Köln,Dock United\n"
TWO = ("group,Two\nclub,Delta,4\nclub,Elbe,5\nclub,Fjord,6\n"
       "match,Delta,Elbe\nmatch,Delta,Fjord\nmatch,Elbe,Fjord\n")
CUP = HEAD + ONE + ONE_MATCHES + TWO + "season\n"
EARLY = "result,1,1,0\nresult,2,1,0\nresult,3,2,0\nresult,4,1,0\nresult,5,1,0\nask\n"
LATE = EARLY + "result,6,1,0\nask\n"
FULL_GROUP = "group,Full\n" + "".join(f"club,F{number},1\n" for number in range(6))


def after_clubs(line: str) -> str:
    """An input with this line after the three clubs of the first group."""
    return HEAD + ONE + line + "\n" + ONE_MATCHES + TWO + "season\nask\n"


def in_cup(line: str) -> str:
    """An input with this line in place of the first record."""
    return line + "\n" + CUP.split("\n", 1)[1] + "ask\n"


def groups_of(count: int) -> str:
    """So many groups of three clubs."""
    return "".join(f"group,G{number}\n" + "".join(f"club,C{number}.{club},1\n" for club in range(3))
                   for number in range(count))


# the text, and the row with which `groups` ends: one test after the other, and pairs of them
REFUSALS = (
    ("", "fault,1,no_cup"),
    ("# nothing\n\n", "fault,3,no_cup"),
    ("league,Mini,3\n", "fault,1,no_cup"),
    ("cup,Mi\rni,3,2000,1\n", "fault,1,no_cup"),
    (HEAD, "fault,2,no_season"),
    (HEAD + ONE, "fault,6,no_season"),
    (HEAD + "line,1\n", "fault,2,unknown_record"),
    (HEAD + HEAD, "fault,2,unknown_record"),
    (HEAD + "club,A,0,x\n", "fault,2,unknown_record"),
    (HEAD + "match,A\n", "fault,2,unknown_record"),
    (HEAD + ONE + "match,Anchor,Köln\nclub,D\n", "fault,7,unknown_record"),
    (HEAD + "group,O\rne\n", "fault,2,unknown_record"),
    (HEAD + "group,One\nclub,A,1\nmatch,A\n", "fault,4,too_few_clubs"),
    (HEAD + "group,One\ngroup\n", "fault,3,too_few_clubs"),
    (HEAD + "group,One\nseason,x\n", "fault,3,too_few_clubs"),
    ("cup,,0,2000\n", "fault,1,wrong_width"),
    (HEAD + "group,,x\n", "fault,2,wrong_width"),
    (HEAD + "season,x\n", "fault,2,wrong_width"),
    (HEAD + ONE + "match,Anchor\n", "fault,6,wrong_width"),
    ("cup,Mini,21,2000,1\n", "fault,1,bad_field"),
    ("cup,Mini,3,0,1\n", "fault,1,bad_field"),
    ("cup,Mini,3,2000,x\n", "fault,1,bad_field"),
    (HEAD + "group," + "x" * 41 + "\n", "fault,2,bad_field"),
    (HEAD + ONE + "club,Anchor,0\n", "fault,6,bad_field"),
    (HEAD + groups_of(12) + "group," + "x" * 41 + "\n", "fault,50,bad_field"),
    (HEAD + ONE + "club,Anchor,9\n", "fault,6,club_twice"),
    (HEAD + ONE + "group,Two\nclub,Köln,9\n", "fault,7,club_twice"),
    (HEAD + FULL_GROUP + "club,F0,1\n", "fault,9,club_twice"),
    (HEAD + ONE + "match,Elbe,Elbe\n", "fault,6,unknown_club"),
    (HEAD + ONE + ONE_MATCHES + TWO + "match,Anchor,Delta\n", "fault,16,unknown_club"),
    (HEAD + ONE + "match,Anchor,Anchor\n", "fault,6,self_match"),
    (HEAD + ONE + "match,Anchor,Köln\n" * 60 + "match,Köln,Köln\n", "fault,66,self_match"),
    (HEAD + FULL_GROUP + "club,F6,1\n", "fault,9,too_many"),
    (HEAD + ONE + "match,Anchor,Köln\n" * 61, "fault,66,too_many"),
    (HEAD + groups_of(12) + "group,G12\n", "fault,50,too_many"),
    (HEAD + "season\n", "fault,2,too_few_groups"),
    ("cup,Mini,3,2000,9\n" + ONE + "season\n", "fault,6,too_few_groups"),
    (CUP.replace("2000,1", "2000,0"), "fault,16,quota_range"),
    (CUP.replace("2000,1", "2000,2"), "fault,16,quota_range"),
    (CUP + "result,7,1,0\n", "fault,17,unknown_fixture"),
    (CUP + "proofs\n", "fault,17,unknown_record"),
    (CUP + "when,1\n", "fault,17,unknown_record"),
    (CUP + "deduct,Zulu,100\n", "fault,17,unknown_club"),
    (CUP + "result,06,1,0\nask\ndeduct,Elbe,3\n", ""),
    (HEAD + groups_of(12) + "season\n", ""),
    (CUP.replace("group,Two", "group,One"), ""),
)

MISTAKES = (
    Mistake("no quota", in_cup("cup,Mini,3,2000"), "fault,1,wrong_width",
            ("number of runners-up that qualify",), ("cup,Mini,3,2000,1",)),
    Mistake("a league's record", in_cup("Cup;Mini;3;2000;1"), "fault,1,no_cup",
            ("commas, not by semicolons",), ("cup,Mini,3,2000,1",)),
    Mistake("a goal limit of nought", in_cup("cup,Mini,0,2000,1"), "fault,1,bad_field",
            ("1 to 20",), ("cup,Mini,9,2000,1",)),
    Mistake("too many qualify", in_cup("cup,Mini,3,2000,2"), "fault,16,quota_range",
            ("of 2 runners-up 2 would qualify", "from 1 to 1")),
    Mistake("a club before its group", HEAD + ONE.replace("group,One\n", "") + ONE_MATCHES + TWO
            + "season\nask\n", "fault,2,unknown_record", ("a group has to begin",),
            ("group,A", "club,Anchor,1")),
    Mistake("a line", after_clubs("line,1"), "fault,6,unknown_record", ("a cup has no `line`",)),
    Mistake("a club of another group", HEAD + ONE + ONE_MATCHES
            + TWO.replace("match,Delta,Elbe", "match,Delta,Köln") + "season\nask\n",
            "fault,13,unknown_club", ("`Köln` plays in the group `One`",)),
    Mistake("a name in other letters", after_clubs("match,anchor,Köln"), "fault,6,unknown_club",
            ("Anchor",), ("match,Anchor,Köln",)),
    Mistake("a club twice", after_clubs("club,Köln,2"), "fault,6,club_twice",
            ("is there already",), (LEAVE_OUT,)),
    Mistake("a group with a comma", CUP.replace("group,Two", "group,Two, late") + "ask\n",
            "fault,9,wrong_width", ("needs double quotes",), ('group,"Two, late"',)),
    Mistake("groups of other sizes", CUP.replace("club,Fjord,6\n", "club,Fjord,6\nclub,Gota,7\n")
            + "ask\n", "", ("different numbers of clubs", "group `Two`: ", "Delta - Gota")),
    Mistake("a match twice", CUP.replace("match,Delta,Elbe\n", "match,Delta,Elbe\n" * 2) + "ask\n",
            "", ("group `Two`: most pairs", "Is a match listed twice?")),
    Mistake("a feed without an ask", CUP + "result,1,1,0\n", "", ("has no `ask`",)),
    Mistake("a number of the group", CUP + "result,9,1,0\nask\n", "fault,17,unknown_fixture",
            ("the sheet has 6",)),
)
