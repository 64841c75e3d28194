"""Validates values of JSON against the part of JSON Schema (draft 2020-12) that docs/schema uses."""
import re

from harness import Different

TYPES = {"object": dict, "array": list, "string": str, "integer": int, "boolean": bool, "null": type(None)}
# `version` is our own: a keyword that JSON Schema doesn't know says nothing of values
KNOWN = {"$schema", "title", "version", "description", "type", "properties", "required", "items", "enum",
         "additionalProperties", "minimum", "pattern", "oneOf", "$defs", "$ref"}


def is_of(value: object, name: str) -> bool:
    # True is an int in Python, and no integer in JSON
    return isinstance(value, TYPES[name]) and (name == "boolean" or not isinstance(value, bool))


def faults(value: object, schema: dict, at: str = "$", defined: dict | None = None) -> list[str]:
    """Returns what is wrong with the value, each with where it stands. The schema's own parts go by their names."""
    defined = schema.get("$defs", {}) if defined is None else defined
    unknown = set(schema) - KNOWN
    found = [f"{at}: the validator doesn't know {name}" for name in sorted(unknown)]
    if "$ref" in schema:
        found += faults(value, defined[schema["$ref"].removeprefix("#/$defs/")], at, defined)
    types = schema.get("type", [])
    types = [types] if isinstance(types, str) else types
    if types and not any(is_of(value, name) for name in types):
        return [*found, f"{at}: {value!r} is no {' or '.join(types)}"]
    if "enum" in schema and not any(value is other or (value == other and type(value) is type(other))
                                    for other in schema["enum"]):
        found.append(f"{at}: {value!r} is none of {schema['enum']}")
    if "minimum" in schema and is_of(value, "integer") and value < schema["minimum"]:
        found.append(f"{at}: {value!r} is below {schema['minimum']}")
    if "pattern" in schema and isinstance(value, str) and not re.search(schema["pattern"], value):
        found.append(f"{at}: {value!r} isn't of the form {schema['pattern']}")
    if isinstance(value, dict):
        found += faults_of_object(value, schema, at, defined)
    if isinstance(value, list):
        for place, item in enumerate(value):
            found += faults(item, schema.get("items", {}), f"{at}[{place}]", defined)
    if "oneOf" in schema:
        fit = [other for other in schema["oneOf"] if not faults(value, other, at, defined)]
        if len(fit) != 1:
            found.append(f"{at}: fits {len(fit)} of {len(schema['oneOf'])} schemas")
    return found


def faults_of_object(value: dict, schema: dict, at: str, defined: dict) -> list[str]:
    properties = schema.get("properties", {})
    found = [f"{at}: lacks {name}" for name in schema.get("required", []) if name not in value]
    for name, item in value.items():
        if name in properties:
            found += faults(item, properties[name], f"{at}.{name}", defined)
        elif schema.get("additionalProperties", True) is False:
            found.append(f"{at}: {name} isn't expected")
    return found


def fits(value: object, schema: dict) -> None:
    found = faults(value, schema)
    if found:
        raise Different("\n".join(found))
