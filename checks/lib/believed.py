"""What the promises of the program rest on: the definitions that the clauses of the top call and of
its devices name, those that these name, and so on. A word means what its file says: a definition
of its own, or what a `use` line brings in."""

import glob
import re

# where the promises stand: a crate, and the words that begin what has the clauses
PROMISES = (("futmax_main", "\npub fn futmax<"), ("port_core", "\npub trait Source {"),
            ("port_core", "\npub trait Sink {"))
ITEM = re.compile(r"(?:(?:abbrev|unfoldable|pub|data|record) )*([^\s:({]+)")
USE = re.compile(
    r"\s*(?:pub |ghost )*use Rattle\.(\w+)\.specs\.([\w.]+?)(?:\.\{([^}]*)\}| as (\w+));?$")
NO_ITEM = (" ", "}", "unfolding ", "use ", "ghost use ", "pub use ", "mod ", "pub mod ")
WORD = re.compile(r"(?<![\w'.-])\w[\w'-]*(?:\.\w[\w'-]*)*")
# `λ a b.`, `(a b : ..`, `let a`
BINDER = re.compile(r"λ ([\w' ]+)\.|\(((?:[a-z][\w']* )+): |let ([a-z][\w']*)")
# a field or a constructor, which binds nothing in its own type
FIELD = re.compile(r"(?m)^  (?:pub )?[\w']+ : ")


class Module:
    """A file: the lines before its first definition, those of each definition with the comment
    above it, the constructors of its types, and what its `use` lines bring in."""

    def __init__(self, lines):
        self.head, self.items, self.constructors = [], {}, {}
        self.names, self.aliases = {}, {}
        above, name = [], None
        for line in lines:
            if line.startswith("--") or not line:
                above.append(line)
                continue
            self.note_use(USE.match(line))
            if not line.startswith(NO_ITEM):
                name = ITEM.match(line).group(1)
            into = self.head if name is None else self.items.setdefault(name, [])
            into += above + [line]
            above = []
            if name and line.startswith("  ") and self.is_data(name):
                self.constructors.setdefault(line.split()[0], name)

    def note_use(self, used):
        if used and used.group(4):
            self.aliases[used.group(4)] = used.group(1, 2)
        elif used:
            for it in filter(None, map(str.strip, used.group(3).split(","))):
                name, _, other = it.partition(" as ")
                self.names[other or name] = used.group(1, 2) + (name,)

    def is_data(self, name):
        return any(it.startswith(("pub data ", "data ")) for it in self.items[name])


def modules_of(root):
    """The modules of specs/, by crate and path; without lists of modules and what the tool makes."""
    found = {}
    for path in sorted(glob.glob(f"{root}/crates/*/specs/**/*.antt", recursive=True)):
        crate, _, rest = path[len(f"{root}/crates/"):-len(".antt")].partition("/specs/")
        name = rest.rpartition("/")[2]
        if not rest.startswith("declared/") and name != "Lib" and name[0].isupper():
            with open(path, encoding="utf-8") as it:
                found[crate, rest.replace("/", ".")] = Module(it.read().split("\n"))
    return found


def meaning(modules, here, module, word):
    """The crate, the module and the name of the definition that a word is in a module, if any."""
    first, *rest = word.split(".")
    if first in module.aliases and rest:
        place, name = module.aliases[first], rest[0]
    elif first in module.items or first in module.constructors:
        place, name = here, first
    elif first in module.names:
        *place, name = module.names[first]
    else:
        return None
    other = modules.get(tuple(place))
    name = other and other.constructors.get(name, name)
    return (*place, name) if other and name in other.items else None


def clauses_of(lines):
    """A definition without its comments, cut where a line is not set in."""
    text = "\n".join(it for it in lines if it and not it.startswith("--"))
    return re.split(r"\n(?! )", FIELD.sub("  ", text))


def free_words(modules, here, name):
    """The words of a definition that it does not bind itself."""
    module, found = modules[here], set()
    for clause in clauses_of(module.items[name]):
        bound = {word for it in BINDER.finditer(clause) for group in it.groups() if group
                 for word in group.split()}
        left, equals, _ = clause.partition(" =")
        if equals and left.startswith(name):
            taken = WORD.findall(left[len(name):])
            bound |= {it for it in taken if it[0].islower() and not is_constructor(modules, module, it)}
        found |= {it for it in WORD.findall(clause) if it.split(".")[0] not in bound}
    return found


def is_constructor(modules, module, word):
    *place, name = module.names.get(word, ("", "", ""))
    other = modules.get(tuple(place))
    return word in module.constructors or bool(other and name in other.constructors)


def text_with(root, crate, words):
    """The text of the source file of a crate in which these words stand."""
    for path in sorted(glob.glob(f"{root}/crates/{crate}/src/**/*.rt", recursive=True)):
        with open(path, encoding="utf-8") as it:
            text = it.read()
        if words in text:
            return text
    raise LookupError(f"no source of {crate} has {words.strip()!r}")


def promised(root, modules):
    """The definitions that the clauses of the promises name."""
    found = set()
    for crate, opening in PROMISES:
        text = text_with(root, crate, opening)
        module = Module([it for it in text.split("\n") if USE.match(it)])
        clauses = re.split(r"\n[{}]\n", text.partition(opening)[2])[0]
        found |= {meaning(modules, None, module, it)
                  for it in WORD.findall(re.sub(r"//.*", "", clauses))}
    return found - {None}


def named_by_laws(modules):
    """The definitions that modules of laws name, in whatever crate and folder."""
    return {meaning(modules, here, module, word) for here, module in modules.items()
            if here[1].endswith("Laws") for name in module.items
            for word in free_words(modules, here, name)} - {None}


def rests_of(modules, due):
    """These definitions and all that they rest on."""
    found = set()
    while due:
        found |= due
        due = {meaning(modules, it[:2], modules[it[:2]], word)
               for it in due for word in free_words(modules, it[:2], it[2])} - found - {None}
    return found


def believed(root, modules):
    """The definitions that the promises rest on, each as its crate, its module and its name."""
    return rests_of(modules, promised(root, modules))


def lines_of(modules, it):
    """The lines of a definition, without comments."""
    return [line for line in modules[it[:2]].items[it[2]] if line and not line.startswith("--")]
