"""Whether a value is as a JSON Schema says: those of its words that docs/answer.schema.json uses.

A word that is not known here is an error, so that no part of a schema goes by unread.
"""

from __future__ import annotations

KINDS = {"object": dict, "array": list, "string": str, "integer": int, "boolean": bool,
         "null": type(None)}
SAID = ("$schema", "$id", "$defs", "title", "description")


def faults_of(value: object, schema: dict, root: dict, where: str = "$") -> list[str]:
    """What is wrong with a value, and where; nothing if it fits."""
    faults: list[str] = []
    for word, wanted in schema.items():
        if word not in SAID:
            faults += TESTS[word](value, wanted, schema, root, where)
    return faults


def _ref(value, wanted, _schema, root, where):
    target = root
    for part in wanted.removeprefix("#/").split("/"):
        target = target[part]
    return faults_of(value, target, root, where)


def _type(value, wanted, _schema, _root, where):
    fits = isinstance(value, KINDS[wanted]) and isinstance(value, bool) == (wanted == "boolean")
    return [] if fits else [f"{where}: {value!r} is no {wanted}"]


def _one_of(value, wanted, _schema, root, where):
    found = [faults_of(value, one, root, where) for one in wanted]
    fitting = sum(not faults for faults in found)
    if fitting == 1:
        return []
    return [f"{where}: {fitting} of {len(wanted)} forms fit"] + min(found, key=len)


def _required(value, wanted, _schema, _root, where):
    return [f"{where}: {name} is missing" for name in wanted
            if isinstance(value, dict) and name not in value]


def _properties(value, wanted, _schema, root, where):
    if not isinstance(value, dict):
        return []
    return [fault for name, schema in wanted.items() if name in value
            for fault in faults_of(value[name], schema, root, f"{where}.{name}")]


def _additional(value, wanted, schema, _root, where):
    if not isinstance(value, dict) or wanted:
        return []
    return [f"{where}: {name} is not known" for name in value if name not in schema["properties"]]


def _items(value, wanted, _schema, root, where):
    if not isinstance(value, list):
        return []
    return [fault for at, item in enumerate(value)
            for fault in faults_of(item, wanted, root, f"{where}[{at}]")]


def _same(value, wanted):
    """Whether two values are the same in JSON, where true is not 1."""
    return type(value) is type(wanted) and value == wanted


def _one_value(value, wanted, _schema, _root, where):
    return [] if _same(value, wanted) else [f"{where}: {value!r} is not {wanted!r}"]


def _enum(value, wanted, _schema, _root, where):
    fits = any(_same(value, one) for one in wanted)
    return [] if fits else [f"{where}: {value!r} is none of {wanted}"]


def _minimum(value, wanted, _schema, _root, where):
    too_small = isinstance(value, int) and value < wanted
    return [f"{where}: {value} is less than {wanted}"] if too_small else []


def _maximum(value, wanted, _schema, _root, where):
    too_great = isinstance(value, int) and value > wanted
    return [f"{where}: {value} is more than {wanted}"] if too_great else []


def _min_length(value, wanted, _schema, _root, where):
    too_short = isinstance(value, str) and len(value) < wanted
    return [f"{where}: {value!r} is too short"] if too_short else []


TESTS = {
    "$ref": _ref, "type": _type, "oneOf": _one_of, "required": _required,
    "properties": _properties, "additionalProperties": _additional, "items": _items,
    "const": _one_value, "enum": _enum, "minimum": _minimum, "maximum": _maximum,
    "minLength": _min_length,
}
