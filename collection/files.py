"""Files that are whole or not there: each is written under another name beside its own, and then renamed."""

import hashlib
import os
import re
import secrets
import unicodedata
from contextlib import contextmanager
from pathlib import Path

from .words import WORDS

INPUTS = WORDS["inputs"]
LONGEST_NAME = 80
"""How many characters a folder's name has at most, without the number that tells it from others."""

UNDONE = ".part"
BLOCK = 1 << 20


@contextmanager
def replacing(path, synced=False):
    """A new file that takes this path's place once all is written; where that fails, nothing is left of it. Who may
    read it is as the umask tells. Where it is synced, it is on the disk before."""
    path = Path(path)
    other = path.parent / f".{path.name[:40]}{secrets.token_hex(8)}{UNDONE}"
    try:
        handle = os.open(other, os.O_WRONLY | os.O_CREAT | os.O_EXCL, 0o666)
    except FileNotFoundError:
        path.parent.mkdir(parents=True, exist_ok=True)
        handle = os.open(other, os.O_WRONLY | os.O_CREAT | os.O_EXCL, 0o666)
    try:
        with os.fdopen(handle, "wb") as file:
            yield file
            file.flush()
            if synced:
                os.fsync(file.fileno())
        os.replace(other, path)
    except BaseException:
        other.unlink(missing_ok=True)
        raise


def write(path, data):
    with replacing(path) as file:
        file.write(data.encode() if isinstance(data, str) else data)


def write_new(path, data):
    """Writes these bytes, unless the file has them already."""
    if digest_of_file(path) != digest(data):
        write(path, data)


def digest(data):
    return hashlib.sha256(data).hexdigest()


def digest_of_file(path):
    """A file's digest, or None where it can't be read."""
    found = hashlib.sha256()
    try:
        with open(path, "rb") as file:
            while block := file.read(BLOCK):
                found.update(block)
    except OSError:
        return None
    return found.hexdigest()


def plain(text):
    """The text without characters that steer what shows it: each of these as its number."""
    if text.isascii() and text.isprintable():
        return text
    steering = ("Cc", "Cf", "Cs", "Co", "Cn", "Zl", "Zp")
    return "".join(f"\\u{ord(it):04x}" if unicodedata.category(it) in steering else it for it in text)


def counted(number, word):
    """So many things of this name."""
    return f"{number} {word}{'' if number == 1 else 's'}"


def slug(name):
    """A folder's name for a design of this name: letters, digits and dashes alone."""
    flat = "".join(
        it for it in unicodedata.normalize("NFKD", name[: 4 * LONGEST_NAME]) if not unicodedata.combining(it)
    )
    word = re.sub(r"[^A-Za-z0-9]+", "-", flat).strip("-").lower()[:LONGEST_NAME].strip("-")
    return word or "design"


def is_slug(name):
    """Whether a folder has a name that is made of a design's."""
    return re.fullmatch(r"[a-z0-9]+(?:-[a-z0-9]+)*", name) is not None


def short(text, most):
    """A text of so many signs at most; where more were cut, with how many."""
    return text if len(text) <= most else INPUTS["cut"].format(text[:most], len(text) - most)


def free_name(name, taken, counts=None):
    """The folder's name, with a number where it is taken; the numbers that names have come to are kept where told."""
    counts = {} if counts is None else counts
    word = slug(name)
    count = counts.get(word, 1)
    found = word if count == 1 else f"{word}-{count}"
    while found in taken:
        count += 1
        found = f"{word}-{count}"
    counts[word] = count
    return found
