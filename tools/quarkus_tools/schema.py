"""The JSON Schema of project files, docs/app.schema.json: a small checker of it, and what it says about
a key, in words.

The checker knows the words of JSON Schema that the file uses, and refuses any other."""

import json
import os
import re

from .words import either

TOP = os.path.dirname(os.path.dirname(os.path.dirname(os.path.realpath(__file__))))
FILE = os.path.join(TOP, "docs", "app.schema.json")
SILENT = {"$schema", "$id", "title", "description", "default", "$defs", "examples", "$comment", "x-taplo"}
TYPES = {"object": dict, "array": list, "string": str, "boolean": bool, "integer": int}


def load():
    """The schema as a tree."""
    with open(FILE, encoding="utf-8") as file:
        return json.load(file)


class Checker:
    """Checks trees of plain values against one schema."""

    def __init__(self, schema):
        self.root = schema

    def resolve(self, schema):
        """The schema behind its `$ref`; beside one other words may stand."""
        while isinstance(schema, dict) and "$ref" in schema:
            target = self.root
            for part in schema["$ref"].removeprefix("#/").split("/"):
                target = target[part]
            schema = {**target, **{key: it for key, it in schema.items() if key != "$ref"}}
        return schema

    def faults(self, value, schema=None, path=""):
        """(path, message) for everything in the value that the schema refuses."""
        schema = self.resolve(self.root if schema is None else schema)
        if schema is True:
            return []
        if schema is False:
            return [(path, "may not stand here")]
        found = []
        for word, meaning in schema.items():
            if word in SILENT or word in ("then", "else"):
                continue
            check = getattr(self, "check_" + word, None)
            if check is None:
                raise ValueError(f"the checker doesn't know the word {word}")
            found += check(value, meaning, path, schema)
        return found

    def check_type(self, value, wanted, path, schema):
        right = isinstance(value, TYPES[wanted]) and not (wanted == "integer" and isinstance(value, bool))
        return [] if right else [(path, f"is no {wanted}")]

    def check_enum(self, value, wanted, path, schema):
        right = any(type(value) is type(it) and value == it for it in wanted)
        return [] if right else [(path, "is none of " + ", ".join(map(str, wanted)))]

    def check_const(self, value, wanted, path, schema):
        return self.check_enum(value, [wanted], path, schema)

    def check_pattern(self, value, pattern, path, schema):
        right = not isinstance(value, str) or re.search(pattern.replace("$", r"\Z"), value)
        return [] if right else [(path, "doesn't have the form of its place")]

    def check_maxLength(self, value, most, path, schema):
        return [(path, f"has more than {most} characters")] if isinstance(value, str) and len(value) > most else []

    def check_maxItems(self, value, most, path, schema):
        return [(path, f"has more than {most} entries")] if isinstance(value, list) and len(value) > most else []

    def check_maxProperties(self, value, most, path, schema):
        return [(path, f"has more than {most} keys")] if isinstance(value, dict) and len(value) > most else []

    def check_uniqueItems(self, value, wanted, path, schema):
        if not wanted or not isinstance(value, list):
            return []
        texts = [json.dumps(it, sort_keys=True) for it in value]
        return [(f"{path}[{i}]", "stands there before") for i, it in enumerate(texts) if it in texts[:i]]

    def check_items(self, value, each, path, schema):
        parts = enumerate(value) if isinstance(value, list) else ()
        return [it for i, part in parts for it in self.faults(part, each, f"{path}[{i}]")]

    def check_propertyNames(self, value, names, path, schema):
        keys = value if isinstance(value, dict) else ()
        return [it for key in keys for it in self.faults(key, names, below(path, key))]

    def check_properties(self, value, keys, path, schema):
        if not isinstance(value, dict):
            return []
        return [it for key, each in keys.items() if key in value for it in self.faults(value[key], each, below(path, key))]

    def check_additionalProperties(self, value, each, path, schema):
        known = schema.get("properties", {})
        others = [key for key in value if key not in known] if isinstance(value, dict) else []
        return [it for key in others for it in self.faults(value[key], each, below(path, key))]

    def check_required(self, value, keys, path, schema):
        return [(below(path, key), "is absent") for key in keys if key not in value] if isinstance(value, dict) else []

    def check_if(self, value, condition, path, schema):
        branch = schema.get("else", True) if self.faults(value, condition, path) else schema.get("then", True)
        return self.faults(value, branch, path)

    def at(self, atoms):
        """The schemas along a path of keys and numbers; the last is None where the path leaves it."""
        found = [self.resolve(self.root)]
        for atom in atoms:
            schema = found[-1]
            if isinstance(atom, int) and "items" in schema:
                found.append(self.resolve(schema["items"]))
            elif isinstance(atom, int) and isinstance(schema.get("additionalProperties"), dict):
                found.append(self.resolve(schema["additionalProperties"]))
            elif not isinstance(atom, int) and atom in schema.get("properties", {}):
                found.append(self.resolve(schema["properties"][atom]))
            else:
                return found + [None]
        return found


def below(path, key):
    return f"{path}.{key}" if path else key


def described(schema):
    """What may stand where a schema is meant, in words."""
    if "enum" in schema:
        values = [json.dumps(it) for it in schema["enum"]]
        return either(values)
    kind = schema.get("type")
    if kind == "array":
        each = schema["items"]
        inner = "names" if each.get("$ref", "").endswith("/name") else "tables" if "$ref" in each else "texts"
        return f"a list of {inner}" + (f", at most {schema['maxItems']:,}" if "maxItems" in schema else "")
    if kind == "string":
        return "a name" if schema.get("pattern", "").endswith("{0,63}$") else "a text"
    return {"object": "a table", "boolean": "true or false", "integer": "a whole number"}.get(kind, "a value")
