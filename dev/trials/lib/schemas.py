"""The JSON schemas of docs/user/formats/, and what a value has that they refuse."""

import json
from typing import Any

from jsonschema import Draft202012Validator
from jsonschema.validators import extend
from support import ROOT

FORMATS = ROOT / "docs/user/formats"


def is_integer(_: object, value: object) -> bool:
    """Whether a value is a whole number as it is written: 1.0 and true are none."""
    return isinstance(value, int) and not isinstance(value, bool)


Validator = extend(Draft202012Validator, type_checker=Draft202012Validator.TYPE_CHECKER.redefine("integer", is_integer))


def schema_of(name: str) -> dict[str, Any]:
    """The schema of that name, which is one."""
    schema: dict[str, Any] = json.loads((FORMATS / f"{name}.schema.json").read_text())
    Validator.check_schema(schema)
    return schema


def faults(value: object, schema: dict[str, Any]) -> list[str]:
    """What is wrong with a value."""
    return [f"{it.json_path}: {it.message}" for it in Validator(schema).iter_errors(value)]
