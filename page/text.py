"""The module of the proved program as text, changed for WebAssembly: the layout of data and the target, the attributes
that are of the other processor, and the entry, which calls the crate's own start and asks for no processor first."""

import re

LAYOUT = re.compile(r'^target datalayout = ".*"$', re.M)
TRIPLE = re.compile(r'^target triple = ".*"$', re.M)
FOREIGN = [
    re.compile(it)
    for it in (' "probe-stack"="inline-asm"', ' "stack-probe-size"="3072"', ' "target-cpu"="x86-64(?:-v2)?"')
]
"""What an attribute group of the program's own functions says of the other processor, each once: how its stack is
probed, and which processor it is."""

OTHERWISE = re.compile(r"probe|target-|tune-|frame-|sanitize")
GROUP = re.compile(r"^attributes #(\d+) = \{.*\}$", re.M)
DEFINED = re.compile(r"^define [^\n]*$", re.M)
GROUPED = re.compile(r'^define [^\n]* #(\d+)[^"\n]* \{$')
ENTRY = re.compile(r"^define [^\n]*@main\([^\n]*\{\n.*?^\}$", re.M | re.S)
START = re.compile(r'call i32 (@"[^"\n]*\+start")\(\)')
STARTED = "define i32 @started() {{\n  %status = call i32 {}()\n  ret i32 %status\n}}"


class Unexpected(Exception):
    """What of the text isn't as it is expected, in words."""


def once(pattern, text, by):
    """The text with the one place of a pattern changed."""
    text, count = pattern.subn(by, text)
    if count != 1:
        raise Unexpected(f"{count} places have the form {pattern.pattern}, and not one")
    return text


def groups_of_functions(text):
    """The numbers of the attribute groups of all functions that the text defines."""
    found = [GROUPED.match(it.group()) for it in DEFINED.finditer(text)]
    if not found or None in found:
        raise Unexpected("a function is defined with no group of attributes")
    return {it.group(1) for it in found}


def without_processor(text):
    """The text whose attribute groups don't name the other processor: those of the functions that it defines do, each
    in the same three words, and no other group does."""
    own = groups_of_functions(text)

    def plain(group):
        told, counts = group.group(), []
        for it in FOREIGN:
            told, count = it.subn("", told)
            counts.append(count)
        if counts != [int(group.group(1) in own)] * len(FOREIGN) or OTHERWISE.search(told):
            raise Unexpected(f"a group of attributes is another than is known: {group.group()}")
        own.discard(group.group(1))
        return told

    changed = GROUP.sub(plain, text)
    if own:
        raise Unexpected(f"there is no group of attributes {sorted(own)[0]}")
    return changed


def changed(text, layout, triple):
    """The text for a target with this layout."""
    text = without_processor(text)
    entry = ENTRY.search(text)
    starts = set(START.findall(entry.group())) if entry else set()
    if len(starts) != 1:
        raise Unexpected("the entry doesn't call the crate's start")
    text = once(ENTRY, text, lambda _: STARTED.format(*starts))
    text = once(LAYOUT, text, lambda _: f'target datalayout = "{layout}"')
    return once(TRIPLE, text, lambda _: f'target triple = "{triple}"')
