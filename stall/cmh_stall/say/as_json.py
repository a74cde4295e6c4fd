"""The tree of an answer as JSON, for machines."""
from __future__ import annotations

import json
from typing import Any, Dict


def text_of_answer(tree: Dict[str, Any]) -> str:
    """Returns the JSON of an answer, with a line for each row. It is of ASCII alone, so no name disturbs a terminal."""
    return "{%s}\n" % ",\n".join(f"{json.dumps(key)}: {text_of_value(value)}" for key, value in tree.items())


def text_of_value(value: Any) -> str:
    if not isinstance(value, list) or not value or not isinstance(value[0], dict):
        return json.dumps(value)
    rows = ",\n  ".join(map(json.dumps, value))
    return f"[\n  {rows}]"
