"""Overrides of policy zones, drawn by chance, and what says them in a line of a script (docs/FORMATS.md) and on the command line
(docs/OPERATING.md)."""

import rules

LONG = (b"f" * 63,) * 3  # with a name in front of it mostly longer than a name can be
TARGETS = ((b"garden", b"test"), (b"Garden", b"Test"), (b"*", b"garden", b"test"), (b"*", b"Garden", b"Test"), (b"*", b"test"), (b"*",),
           (b"rpz-drop",), (b"rpz-passthru",), (b"a", b"*", b"b"), (b"marker", b"test"), LONG, (b"*", *LONG))


def drawn(chance):
    """In some cases `given`."""
    word = b"given" if chance.random() < 0.3 else chance.choice((*rules.OVERRIDES, b"cname", b"cname"))
    return rules.Override(word, chance.choice(TARGETS) if word == b"cname" else None)


def text_of(chance, override, mark, colon):
    """What says it behind a zone; `given` is said in some cases alone."""
    if override.word == b"given" and chance.random() < 0.7:
        return ""
    text = mark + override.word.decode()
    if override.target is None:
        return text
    return text + colon + b".".join(override.target).decode() + chance.choice(("", "."))


def in_script(chance, override):
    return text_of(chance, override, " ", " ")


def in_words(chance, override):
    return text_of(chance, override, "=", ":")
