"""Files from a readable form, for the rows of this folder. README.md says how the form is written."""

import os
import re
import struct
from dataclasses import dataclass
from pathlib import Path

import model

IMAGES = Path(__file__).resolve().parent.parent / "images"

INTEGER = {"16": "H", "32": "I", "64": "Q"}
ITEM = re.compile(
    r'(?P<text>"[^"]*")'
    r"|(?P<order>[lb])e(?P<width>16|32|64)\((?P<number>\d+)\)"
    r"|(?P<digits>(?:[0-9a-f]{2})+)(?:\*(?P<times>\d+))?"
)


class Wrong(Exception):
    """What is wrong in a text of this form."""


@dataclass
class Entry:
    """What stands under a name: a `file` with its bytes, or a `folder`, `fifo` or `link` with none."""

    kind: str
    content: bytes = b""
    target: str = ""
    mode: int | None = None


def bytes_of(text):
    """The bytes that items such as `c8*4`, `"FREE_BLK"` and `le32(1056)` say, one after another."""
    found = b""
    # Blanks stand between items, and inside quotation marks.
    for item in re.findall(r'"[^"]*"|\S+', text):
        part = ITEM.fullmatch(item)
        if part is None:
            raise Wrong(f"no bytes: {item}")
        if part["text"]:
            found += part["text"][1:-1].encode()
        elif part["order"]:
            order = "<" if part["order"] == "l" else ">"
            found += struct.pack(order + INTEGER[part["width"]], int(part["number"]))
        else:
            found += bytes.fromhex(part["digits"]) * int(part["times"] or 1)
    return found


def overwritten(content, position, more):
    """The bytes with others put over them; a gap is zeros."""
    content = content.ljust(position, b"\0")
    return content[:position] + more + content[position + len(more) :]


def origin(name, known):
    """The bytes of a file that is named already, or of an image."""
    if name in known:
        return known[name].content
    image = IMAGES / f"{name}.cckd"
    if not image.is_file():
        raise Wrong(f"neither a file above nor an image: {name}")
    return image.read_bytes()


def disk_left(name, options, known, script):
    """The files of a disk as a script leaves them by the rules, in the place of the known ones."""
    numbers = dict(zip(options[::2], options[1::2]))
    if len(options) % 2 or not numbers.keys() <= {"limit", "until"}:
        raise Wrong(f"no such options: {' '.join(options)}")
    contents = {each: entry.content for each, entry in known.items() if entry.kind == "file"}
    found = model.left(contents, name, script, **{which: int(number) for which, number in numbers.items()})
    return {each: Entry("file", content) for each, content in found.items()}


def files_of(text, known=None, script=b""):
    """The entries that a text names; the known ones are those that a file may begin from."""
    known, entries, last = dict(known or {}), {}, None
    for line in text.splitlines():
        words = line.split()
        match words:
            case [] | ["#", *_]:
                continue
            case ["file", name]:
                last = Entry("file")
            case ["file", name, "from", other]:
                last = Entry("file", origin(other, known))
            case ["base", name, device, *serial] if device in model.DEVICES and len(serial) <= 1:
                last = Entry("file", model.new_base(device, *serial))
            case ["disk", name, *options]:
                found = disk_left(name, options, known, script)
                known |= found
                entries |= found
                last = None
                continue
            case ["folder" | "fifo" as kind, name]:
                last = Entry(kind)
            case ["link", name, "to", other]:
                last = Entry("link", target=other)
            case ["length", number] if last is not None:
                last.content = last.content[: int(number)].ljust(int(number), b"\0")
                continue
            case ["mode", digits] if last is not None:
                last.mode = int(digits, 8)
                continue
            case [place, *_] if last is not None and re.fullmatch(r"\d+:", place):
                last.content = overwritten(last.content, int(place[:-1]), bytes_of(line.split(":", 1)[1]))
                continue
            case _:
                raise Wrong(f"no such line: {line.strip()}")
        entries[name] = known[name] = last
    return entries


def write(folder, entries):
    """Makes the entries in a folder."""
    for name, entry in entries.items():
        path = folder / name
        match entry.kind:
            case "file":
                path.write_bytes(entry.content)
            case "folder":
                path.mkdir()
            case "fifo":
                os.mkfifo(path)
            case "link":
                path.symlink_to(entry.target)
        if entry.mode is not None:
            path.chmod(entry.mode)


def entry_at(path):
    if path.is_symlink():
        return Entry("link", target=os.readlink(path))
    if path.is_dir():
        return Entry("folder")
    if path.is_fifo():
        return Entry("fifo")
    if not os.access(path, os.R_OK):
        path.chmod(0o600)
    return Entry("file", path.read_bytes())


def read(folder):
    """The entries that stand in a folder, but for their modes."""
    return {path.relative_to(folder).as_posix(): entry_at(path) for path in sorted(folder.rglob("*"))}


def shown(content, position):
    return content[position : position + 16].hex(" ", 4) or "the end"


def differences(wanted, found):
    """Lines that say how entries differ from the wanted ones."""
    for name in sorted(wanted | found):
        if name not in found:
            yield f"{name} is gone"
        elif name not in wanted:
            yield f"{name} was made: {found[name].kind} of {len(found[name].content)} bytes"
        elif wanted[name].kind != found[name].kind or wanted[name].target != found[name].target:
            yield f"{name} is a {found[name].kind}, and not the {wanted[name].kind} that is wanted"
        elif (old := wanted[name].content) != (new := found[name].content):
            pairs = enumerate(zip(old, new))
            at = next((place for place, (one, other) in pairs if one != other), min(len(old), len(new)))
            yield f"{name} has {len(new)} bytes where {len(old)} are wanted, and differs first at {at}:"
            yield f"  wanted {shown(old, at)}"
            yield f"  found  {shown(new, at)}"
