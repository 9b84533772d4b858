#!/usr/bin/env python3
"""Writes two files beside each station's text, NAME.txt: NAME.bin, the table followed by its image, and NAME.listing, the text that
the listing program has to write. The elements in the text are made by hand from the norm's annexes, and the listing is made from the
text: neither comes from the program. Other texts: make.py FILE.."""
import glob
import os
import sys


def read(lines):
    """The catalogue's X and Y, the position, and (type, label, element) of each object."""
    catalogue, position, objects = (1, 0), 0, []
    for line in lines:
        words = line.split("#", 1)[0].split()
        if not words:
            continue
        if words[0] == "catalogue":
            catalogue = tuple(int(part) for part in words[1].split("."))
        elif words[0] == "position":
            position = int(words[1])
        else:
            kind, label, element = words
            objects.append((int(kind), label, bytes.fromhex(element)))
    return catalogue, position, objects


def form(catalogue, contents):
    """A form: the length of all that follows, version 1, the catalogue's X and Y, the contents."""
    body = bytes([1, *catalogue]) + contents
    return len(body).to_bytes(4, "big") + body


def forms(catalogue, position, objects):
    entries = b"".join(bytes([kind, len(label)]) + label.encode("ascii") for kind, label, _ in objects)
    elements = b"".join(element for _, _, element in objects)
    table = form(catalogue, len(objects).to_bytes(2, "big") + entries)
    return table + form(catalogue, position.to_bytes(4, "big") + elements)


def listing(catalogue, position, objects):
    lines = ["%d.%d %d %d" % (*catalogue, position, len(objects))]
    for number, (kind, label, element) in enumerate(objects):
        lines.append("%d %d %s %s" % (number, kind, label, element.hex().upper()))
    return "".join(line + "\n" for line in lines)


def main():
    here = os.path.dirname(os.path.abspath(__file__))
    for source in sys.argv[1:] or sorted(glob.glob(os.path.join(here, "*.txt"))):
        name = os.path.splitext(source)[0]
        with open(source, encoding="ascii") as lines:
            station = read(lines)
        with open(name + ".bin", "wb") as out:
            out.write(forms(*station))
        with open(name + ".listing", "w", encoding="ascii") as out:
            out.write(listing(*station))


if __name__ == "__main__":
    main()
