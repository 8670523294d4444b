"""What `checks/house` looks at in pages: how long they are, whether they are plain, whether the
paths that they name are there, and whether their tables agree with crates.txt and checks/.
"""

import glob
import os
import re

# how many words a page may have, by its name or its kind; the first that fits counts
MOST_WORDS = (
    ("README.md", 1500), ("SECURITY.md", 500), ("docs/README.md", 350),
    ("docs/ARCHITECTURE.md", 1700), ("docs/CONTRIBUTING.md", 1000), ("docs/DECISIONS.md", 4000),
    ("docs/definitions.md", 3500), ("docs/promises.md", 2800), ("docs/TRUST.md", 3500),
    ("docs/GLOSSARY.md", 1200), ("docs/*.md", 2500), ("bench/README.md", 1000),
    ("checks/README.md", 600), ("crates/*/README.md", 400), ("examples/*/about.md", 300))
# how many words all of them may have together, but for SECURITY and the examples
MOST_TOGETHER = 35000
# the pages that are read
PAGES = ("README.md", "SECURITY.md", "docs/*.md", "bench/README.md", "checks/README.md",
         "crates/*/README.md", "examples/*/about.md")
# the commands of checks/ that look at nothing
NO_CHECKS = {"gate-clock", "gate-times"}
# words by which a line is one of text, and words by which it is the first so many places
OF_TEXT = re.compile(
    r"\blines? (?:of|in) (?:the |a |an |each |its )?(?:text|CSV|JSON|feed|sheet|input|report|file)"
    r"|\b(?:proof|JSON|CSV|empty|last|next|whole|complete|refused|faulty|typed|other) lines?\b"
    r"|\bline by line\b|\bline feed|\blines? (?:ends?|begins?|has|have|holds?|without)\b"
    r"|\blines? that (?!is asked|are asked)|\b(?:a|the|its|each|no) line `|` line\b|\blines `"
    r"|\bwith its line\b|\bobject a line\b", re.IGNORECASE)
OF_PLACES = re.compile(
    r"`line,|--lines?\b|`line`|\bline k\b|\bline and (?:for |each |a |every )*club"
    r"|\bclub(?:,| and) (?:a |each |every )*line\b|\bclubs times lines\b"
    r"|\b(?:(?<!CR )inside|outside|side of) (?:the|a) line\b|\blines? (?:that )?(?:is|are) asked"
    r"|\b(?:two|three|four|[2-4]) lines\b|,line,")
# what makes a reader stop, and what to write in its place
HABITS = (
    (r"\bwants? of memory\b|\bmemory (?:is|was) wanting\b", "out of memory"),
    (r"\bbehind\b", "after, below, or under"),
    (r"\bin front\b|\ba front of\b", "before, or a prefix of"),
    (r"\btold\b", "read, said, or known"),
    (r"\bwhere (?:no|none|nothing|there is|there are|it is left|it does)\b", "if"),
    (r"(?<!points )\bin hand\b", "at hand, or buffered"),
    (r"\bbettered\b", "improved"),
    (r"\blet(?:s|ting)? (?:it |them )?go\b", "drop"),
    (r"\bmend(?:s|ed|ing)?\b", "fix"))


def lines_of(path):
    with open(path, encoding="utf-8", errors="replace") as it:
        return it.read().split("\n")


def pages(root, *patterns):
    """The files that fit one of the patterns, each once, without what is built."""
    found = {it for pattern in patterns for it in glob.glob(f"{root}/{pattern}", recursive=True)}
    return sorted(it for it in found if "/out/" not in it)


def text_of(path):
    """The numbered lines of a page without blocks of code; tables are part of it."""
    is_fenced, is_code, is_open = False, False, True
    for number, line in enumerate(lines_of(path)):
        if line.startswith("```"):
            is_fenced = not is_fenced
        # a block that is set in begins after an empty line
        is_code = line.startswith("    ") and (is_code or is_open)
        is_open = not line.strip()
        if not (is_fenced or is_code or line.startswith("```")):
            yield number, line


def prose_of(path):
    """The same without tables."""
    return ((number, line) for number, line in text_of(path) if not line.lstrip().startswith("|"))


def words_in(path):
    """How many words a page has to be read: those of its text that have a letter."""
    return sum(bool(re.search(r"[^\W\d_]", it))
               for _, line in text_of(path) for it in line.split())


def words_are_few(root):
    """No page has more words than its kind may have, nor have all of them together."""
    found, seen, together = [], set(), 0
    for pattern, most in MOST_WORDS:
        for path in pages(root, pattern):
            if path in seen:
                continue
            seen.add(path)
            count = words_in(path)
            together += 0 if pattern.startswith(("SECURITY", "examples")) else count
            if count > most:
                found.append(f"{path} has {count} words, and {most} at most are wanted")
    if together > MOST_TOGETHER:
        found.append(f"all pages have {together} words, and {MOST_TOGETHER} at most are wanted")
    return found


def words_are_plain(root):
    """No page and no manual page has one of the habits at which readers stop; what stands between
    ticks or in a block of code may."""
    found = []
    for path in pages(root, *PAGES, "docs/man/*.1"):
        for number, line in text_of(path):
            plain = re.sub(r"`[^`]*`", "", line)
            found += [f"{path}:{number + 1}: {it.group()!r}: write {better}"
                      for habit, better in HABITS for it in re.finditer(habit, plain)]
    return found


def paths_of_pages_stand(root):
    """What pages and manual pages name as a path is there, and so is what pages link to."""
    found = []
    for path in pages(root, "*.md", "docs/*.md", "docs/man/*.1", "bench/README.md",
                      "checks/README.md", "crates/*/README.md"):
        for number, line in text_of(path):
            named = re.findall(
                r"(?<![\w/.-])((?:docs|tools|checks|examples|templates|bench)/[\w/.-]*\w)", line)
            links = re.findall(r"\]\(([\w/.-]+)\)", line)
            found += [f"{path}:{number + 1}: {it} is not there" for it, home in
                      [(it, root) for it in named] + [(it, os.path.dirname(path)) for it in links]
                      if not os.path.exists(f"{home}/{it}")]
    return found


def pages_are_narrow(root):
    """No line of a page passes 100 columns, but for tables and blocks of code."""
    return [f"{path}:{number + 1} has {len(line)} columns"
            for path in pages(root, "*.md", *(f"{it}/**/*.md" for it in (
                "docs", "crates", "bench", "checks", "examples", "templates", "tools")))
            for number, line in prose_of(path) if len(line) > 100]


def table_of(path, heading):
    """The rows of the first table under a heading, as lists of fields without their ticks."""
    rows, is_under, is_in = [], False, False
    for line in lines_of(path):
        if line.startswith("#"):
            is_under = line.startswith(heading)
        elif is_under and line.startswith("|"):
            is_in = True
            rows.append([it.strip().strip("`") for it in line.strip("|").split("|")])
        elif is_in:
            break
    return rows[2:]


def stands_on(named, name, below):
    """Whether a crate is another, or stands on it, perhaps by others between them."""
    return name == below or any(stands_on(named, it, below) for it in named.get(name, []))


def pages_agree(root, named):
    """crates.txt and ARCHITECTURE have the crates in one order, and what the latter's table names as
    the tests of a crate are crates that stand on it, or checks."""
    found = []
    rows = table_of(f"{root}/docs/ARCHITECTURE.md", "## Crates")
    if [it[0] for it in rows] != list(named):
        found.append("ARCHITECTURE has other crates than crates.txt, or in another order")
    for name, _, tests in rows:
        found += [f"ARCHITECTURE has {name} tested by {it}, which does not stand on it"
                  for it in re.findall(r"\w+", re.sub(r"checks/\w+", "", tests))
                  if it in named and not stands_on(named, it, name)]
    return found


def checks_are_listed(root):
    """The table of checks/README.md has each command of checks/ that looks at something, and says
    of which `checks/run` calls it."""
    rows = {it[0]: it[3] for it in table_of(f"{root}/checks/README.md", "# Checks")}
    there = {os.path.basename(it) for it in glob.glob(f"{root}/checks/*")
             if os.path.isfile(it) and not it.endswith((".py", ".md"))} - NO_CHECKS
    text = " ".join("\n".join(lines_of(f"{root}/checks/run")).replace("\\\n", " ").split())
    called = set(re.search(r"for script in ([^;]*);", text).group(1).split())
    called |= set(re.findall(r'" beside (\w+)', text)) | set(
        re.findall(r'"\$home/checks/(\w+)"', text))
    told = {name for name, is_called in rows.items() if is_called not in ("", "no")}
    return ([f"checks/README.md and checks/ differ in {it}" for it in sorted(there ^ set(rows))]
            + [f"checks/README.md and checks/run differ in {it}" for it in sorted(told ^ called)])


def paragraphs_of(path):
    """The paragraphs of a page, each with the number of its first line; an item of a list and a row
    of a table is one of its own."""
    begun, told, before = 0, [], -1
    for number, line in text_of(path):
        is_new = line.lstrip().startswith(("- ", "|", "#")) or number != before + 1
        if told and (is_new or not line.strip()):
            yield begun, " ".join(told)
            told = []
        if line.strip():
            begun = begun if told else number
            told.append(line.strip())
        before = number
    if told:
        yield begun, " ".join(told)


def lines_are_of_one_kind(root):
    """In no paragraph of a page a line is both one of text and the first so many places."""
    found = []
    for path in pages(root, *PAGES):
        for number, text in paragraphs_of(path):
            one, other = OF_TEXT.search(text), OF_PLACES.search(text)
            if one and other:
                found.append(f"{path}:{number + 1}: a line is of text in {one.group()!r} and of "
                             f"places in {other.group()!r}")
    return found
