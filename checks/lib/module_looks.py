"""Looks at the modules of the product's crates: which of them import each other."""

import collections
import glob
import os
import re

# the crates that are for tests alone, beside those whose names end in `_tests`
FOR_TESTS = ("sample_leagues", "reference_programs", "futmax_refused", "futmax_rows")
# so many pairs of modules may import each other in all
MOST_PAIRS = 4

USE = re.compile(r"^[ \t]*use ([^;]+);", re.MULTILINE)


def paths_of(tree):
    """The paths of a `use`, whose braces may stand in each other, as lists of names."""
    head, brace, rest = tree.partition("{")
    if not brace:
        return [re.sub(r"\s+as\s.*", "", tree.strip()).split("::")]
    parts, depth = [""], 0
    for sign in rest[:rest.rindex("}")]:
        depth += {"{": 1, "}": -1}.get(sign, 0)
        if sign == "," and depth == 0:
            parts.append("")
        else:
            parts[-1] += sign
    return [it for part in parts if part.strip() for it in paths_of(head.strip() + part.strip())]


def modules_of(crate):
    """Each module of a crate by its path, a tuple of names, with its text."""
    found = {}
    for path in glob.glob(f"{crate}/src/**/*.rt", recursive=True):
        names = os.path.relpath(path, f"{crate}/src")[:-len(".rt")].split("/")
        with open(path, encoding="utf-8") as it:
            found[() if names in (["lib"], ["main"]) else tuple(names)] = it.read()
    return found


def named_by(modules, module, names):
    """The module of the crate that a path in a module is of; none if it leaves the crate."""
    if names[0] == "crate":
        whole = tuple(names[1:])
    elif names[0] == "super":
        ups = sum(1 for it in names if it == "super")
        whole = module[:len(module) - ups] + tuple(names[ups:])
    elif module + (names[0],) in modules:
        whole = module + tuple(names)
    else:
        return None
    return next(whole[:it] for it in range(len(whole), -1, -1) if whole[:it] in modules)


def imports_of(modules):
    """The modules that each module imports from; what it passes on by `pub use` is not counted."""
    found = collections.defaultdict(set)
    for module, text in modules.items():
        for tree in USE.findall(text):
            named = (named_by(modules, module, it) for it in paths_of(tree))
            found[module] |= {it for it in named if it not in (None, module)}
    return found


def reached_from(imports, module):
    """All modules that a module imports from, perhaps by others between them."""
    found, left = set(), [module]
    while left:
        for it in imports[left.pop()] - found:
            found.add(it)
            left.append(it)
    return found


def modules_import_one_way(root):
    """No more than a few pairs of modules of one product crate import each other, and no three or
    more import each other in a circle."""
    pairs, found = [], []
    for crate in sorted(glob.glob(f"{root}/crates/*")):
        name = os.path.basename(crate)
        if name.endswith("_tests") or name in FOR_TESTS:
            continue
        imports = imports_of(modules_of(crate))
        reached = {it: reached_from(imports, it) for it in list(imports)}
        circles = {tuple(sorted(other for other in reached[it] if it in reached.get(other, ())))
                   for it in reached}
        for circle in sorted(circles):
            told = ", ".join("::".join(it) or name for it in circle)
            if len(circle) == 2:
                pairs.append(f"{name}: {told} import each other")
            elif len(circle) > 2:
                found.append(f"{name}: {told} import each other in a circle")
    return found + (pairs if len(pairs) > MOST_PAIRS else [])
