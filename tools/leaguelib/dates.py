"""Dates as lists of matches have them, in six languages, written as YYYY-MM-DD.

A date without its year is kept as `Aug/17` until a full date before it tells the year.
"""

from __future__ import annotations

import datetime
import re
import unicodedata
from dataclasses import dataclass

MONTHS = ("jan feb mar apr may jun jul aug sep oct nov dec").split()
OTHER_MONTHS = {
    "ene": 1, "gen": 1, "jan": 1, "jann": 1, "fev": 2, "feb": 2, "mrz": 3, "maer": 3, "mar": 3,
    "abr": 4, "avr": 4, "apr": 4, "mai": 5, "mag": 5, "may": 5, "giu": 6, "juin": 6, "jun": 6,
    "lug": 7, "juil": 7, "jul": 7, "ago": 8, "aout": 8, "aug": 8, "set": 9, "sep": 9, "okt": 10,
    "out": 10, "ott": 10, "oct": 10, "nov": 11, "dez": 12, "dic": 12, "dec": 12,
}
MONTH_NAMES = (
    "january february march april may june july august september october november december "
    "januar jaenner janner februar marz maerz mai juni juli oktober dezember "
    "enero febrero marzo abril mayo junio julio agosto septiembre setiembre octubre noviembre "
    "diciembre janvier fevrier mars avril juin juillet aout septembre octobre novembre decembre "
    "gennaio febbraio aprile maggio giugno luglio settembre ottobre dicembre "
    "janeiro fevereiro marco maio junho julho setembro outubro novembro dezembro "
    "jan feb febr fev fevr mar mrz apr abr avr mag jun giu jul juil lug aug ago sep sept set oct "
    "okt out ott nov dec dez dic ene gen janv").split()
DAYS = (
    "monday tuesday wednesday thursday friday saturday sunday mon tue tues wed weds thu thur thurs "
    "fri sat sun montag dienstag mittwoch donnerstag freitag samstag sonnabend sonntag mo di mi do "
    "fr sa so lunes martes miercoles jueves viernes sabado domingo lun mie jue vie sab dom lundi "
    "mardi mercredi jeudi vendredi samedi dimanche jeu ven sam dim lunedi martedi mercoledi "
    "giovedi venerdi domenica gio segunda terca quarta quinta sexta segunda-feira terca-feira "
    "quarta-feira quinta-feira sexta-feira").split()
_LONGEST_FIRST = {"key": len, "reverse": True}
MONTH = "(?:" + "|".join(sorted(set(MONTH_NAMES), **_LONGEST_FIRST)) + r")\b\.?"
DAY = "(?:" + "|".join(sorted(set(DAYS), **_LONGEST_FIRST)) + r")\b\.?,?"
YEAR = r"(?P<year>\d{4}|\d{2}(?=\D|$))"
FORMS = tuple(re.compile(form, re.IGNORECASE) for form in (
    r"(?P<year>\d{4})[-/.](?P<month>\d{1,2})[-/.](?P<day>\d{1,2})"
    r"(?:t\d{2}:\d{2}(?::[\d.]+)?(?:z|[+-]\d{2}:?\d{2})?)?(?!\d)",
    r"(?P<first>\d{1,2})(?P<sign>[./])(?P<second>\d{1,2})[./]" + YEAR,
    r"(?P<first>\d{1,2})(?P<sign>-)(?P<second>\d{1,2})-(?P<year>\d{4})\b",
    r"(?P<word>" + MONTH + r")[/ ](?P<day>\d{1,2})(?:st|nd|rd|th)?\b(?:[ ,/]+(?P<year>\d{4})\b)?",
    r"(?P<day>\d{1,2})(?:st|nd|rd|th|er|º|°|\.)?[ /-](?:de )?(?P<word>" + MONTH
    + r"),?(?:[ /-](?:de )?(?P<year>\d{4})\b)?",
    r"(?P<first>\d{1,2})(?P<sign>\.)(?P<second>\d{1,2})\.(?=\s|$|,)",
))
WEEKDAY = re.compile(r"^\[?" + DAY + r"\]?(?=\s|$)\s*", re.IGNORECASE)
WEEKDAY_IN_FRONT = re.compile(DAY + r"\)?\s+", re.IGNORECASE)
TIME = re.compile(r"^\(?(?:[01]?\d|2[0-3])(?:[.:h]\d{2}(?::\d{2})?)(?:\s?[ap]\.?m\.?)?"
                  r"(?:\s?(?:uhr|hs?|ore|utc[+-]?\d*|gmt|cest|cet|bst|et))?\)?(?=\s|$|,)[,\s]*",
                  re.IGNORECASE)
SLASHED = re.compile(r"(?<![\d/])(\d{1,2})/(\d{1,2})/(?:\d{4}|\d{2})(?![\d/])")


@dataclass(frozen=True)
class Front:
    """A date at the front of a text, and what stands after it."""

    date: str
    rest: str


def folded(text: str) -> str:
    """The text in small letters without accents, sign by sign, so that places stay the same."""
    if text.isascii():
        return text.lower()
    return "".join(unicodedata.normalize("NFKD", sign)[:1].lower()[:1] or sign for sign in text)


def front_date(text: str, is_month_first: bool = False) -> Front | None:
    """The date with which a text begins, a weekday before it or not; none if it has none."""
    line = folded(text)
    start = 1 if line.startswith(("[", "(")) else 0
    weekday = WEEKDAY_IN_FRONT.match(line, start)
    start = weekday.end() if weekday else start
    for form in FORMS:
        found = form.match(line, start)
        date = _date_of(found, is_month_first) if found else ""
        if not date:
            continue
        rest = re.sub(r"^[\],\s|–-]+", "", text[found.end():]) if found.end() < len(text) else ""
        ends = found.end() == len(text) or not text[found.end()].isalnum()
        is_named = "word" in found.groupdict() and line[found.start()].isdigit()
        is_short = is_named and not found.group("year") and not weekday
        if ends and not (is_short and rest and not TIME.match(rest)):
            return Front(date, rest.strip())
    return None


def _date_of(found: re.Match, is_month_first: bool) -> str:
    """The date of a form that was found; nothing if its numbers are no date."""
    parts = found.groupdict()
    if parts.get("word"):
        month = _month_of(parts["word"])
        day = int(parts["day"])
    elif parts.get("month"):
        month, day = int(parts["month"]), int(parts["day"])
    else:
        day, month = int(parts["first"]), int(parts["second"])
        if is_month_first and parts["sign"] == "/":
            day, month = month, day
    if not 1 <= month <= 12 or not 1 <= day <= 31:
        return ""
    if not parts.get("year"):
        return f"{MONTHS[month - 1].capitalize()}/{day}"
    year = int(parts["year"])
    return f"{year + 2000 if year < 100 else year:04}-{month:02}-{day:02}"


def _month_of(word: str) -> int:
    """The number of a month by its name; 0 if it is none."""
    name = word.rstrip(".")
    return next((OTHER_MONTHS[name[:size]] for size in (4, 3) if name[:size] in OTHER_MONTHS), 0)


def plain_date(text: str, is_month_first: bool = False) -> str:
    """A date as YYYY-MM-DD where day, month and year are clear; otherwise as it stands."""
    found = front_date(text.strip(), is_month_first)
    return found.date if found else text.strip()


def is_date(text: str) -> bool:
    """Whether a text is a date, with a weekday and a time of day or without."""
    found = front_date(text.strip())
    return found is not None and TIME.sub("", found.rest) == ""


def is_calendar_day(date: str) -> bool:
    """Whether a date like 2026-05-13 stands in the calendar."""
    try:
        return bool(datetime.date(*map(int, date.split("-"))))
    except (TypeError, ValueError):
        return False


def with_year(date: str, before: str) -> str:
    """A date like Aug/12 with the year of the full date before it, or the next where it is past."""
    found = re.match(r"^([A-Z][a-z]{2})/(\d{1,2})$", date)
    earlier = re.match(r"^(\d{4})-(\d{2})-\d{2}$", before)
    if not found or not earlier:
        return date
    month = MONTHS.index(found.group(1).lower()) + 1
    year = int(earlier.group(1)) + (month < int(earlier.group(2)))
    return f"{year:04}-{month:02}-{int(found.group(2)):02}"


def is_same_day(first: str, second: str) -> bool:
    """Whether two dates are of one day, where one of them may have no year."""
    days = []
    for date in (first, second):
        full = re.match(r"^\d{4}-(\d{2})-(\d{2})$", date)
        short = re.match(r"^([A-Z][a-z]{2})[/ ](\d{1,2})$", date)
        if full:
            days.append((int(full.group(1)), int(full.group(2))))
        elif short and short.group(1).lower() in MONTHS:
            days.append((MONTHS.index(short.group(1).lower()) + 1, int(short.group(2))))
    is_short = any(re.match(r"^[A-Z]", date) for date in (first, second))
    return first == second or (is_short and len(days) == 2 and days[0] == days[1])


def unclear_day(text: str) -> str:
    """The first date like 03/04/2026 that has another meaning if the month comes first."""
    return next((found.group() for found in SLASHED.finditer(text)
                 if found.group(1) != found.group(2) and int(found.group(1)) <= 12
                 and int(found.group(2)) <= 12 and int(found.group(1)) != int(found.group(2))), "")


def slashed_order(text: str) -> str:
    """The order of dates like 8/15/2024 in a list: `day`, `month` or `both`, told by numbers
    above 12; nothing if no date tells it."""
    pairs = [(int(first), int(second)) for first, second in SLASHED.findall(text)]
    days = any(first > 12 >= second for first, second in pairs)
    months = any(second > 12 >= first for first, second in pairs)
    if days and months:
        return "both"
    return "day" if days else "month" if months else ""
