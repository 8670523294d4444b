"""The worked examples in examples/."""

from pathlib import Path

EXAMPLES = Path(__file__).resolve().parents[2] / "examples"


def league_examples() -> list[Path]:
    """The folders of those that are leagues: a cup has a mode of its own."""
    return [path.parent for path in sorted(EXAMPLES.glob("*/sheet.csv"))
            if path.read_text(encoding="utf-8").startswith("league,")]
