"""Small things about words: near names, quoted texts, lists in a sentence."""

import difflib


def near(name, names):
    """The names that look like this one, the nearest first."""
    lower = {}
    for it in names:
        lower.setdefault(it.lower(), it)
    found = difflib.get_close_matches(name.lower(), list(lower), n=3, cutoff=0.6)
    return [lower[it] for it in found if lower[it] != name]


def did_you_mean(name, names):
    """A question that names what was meant, or an empty text."""
    found = near(name, names)
    return f"did you mean {either([f'`{it}`' for it in found])}?" if found else ""


def either(parts):
    """Parts joined by commas and `or`."""
    return joined(parts, "or")


def both(parts):
    """Parts joined by commas and `and`."""
    return joined(parts, "and")


def joined(parts, word):
    parts = list(parts)
    return parts[0] if len(parts) == 1 else ", ".join(parts[:-1]) + f" {word} {parts[-1]}" if parts else ""


def quoted(text):
    """The text in quotes, as the program prints it."""
    kept = {'"': '\\"', "\\": "\\\\", "\n": "\\n", "\t": "\\t"}
    return '"' + "".join(kept.get(it) or (f"\\u{{{ord(it):x}}}" if ord(it) < 0x20 or it == "\x7f" else it) for it in text) + '"'


def count(number, word):
    """A number with its word, as `1 step` or `2 steps`."""
    return f"{number} {word}" if number == 1 else f"{number} {word}s"
