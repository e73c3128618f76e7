"""Where in a network file each table, key and value stands: the line of a place that netcalc names.

A place is written as keys and numbers of entries counted from 0, as `flow[2].path[1]`. The text is taken as TOML 1.1;
one that is no TOML has the places up to its fault."""

import bisect
import re

BLANKS = " \t\r\n"
BARE = re.compile(r"[A-Za-z0-9_-]+")
ESCAPES = {"b": "\b", "t": "\t", "n": "\n", "f": "\f", "r": "\r", "e": "\x1b", '"': '"', "\\": "\\"}


class Ended(Exception):
    """The text ends, or goes on otherwise than TOML does."""


def opened(text):
    """A text without its escapes, as far as they are known."""
    return re.sub(r"\\(.)", lambda found: ESCAPES.get(found[1], found[0]), text)


def placed(place, entry):
    """The place of an entry of an array, or of a key of a table."""
    if isinstance(entry, int):
        return f"{place}[{entry}]"
    return f"{place}.{entry}" if place else entry


class Places:
    """The lines of all places, and the texts that stand at some of them."""

    def __init__(self, text):
        self.text, self.at = text, 0
        self.breaks = [found.start() for found in re.finditer("\n", text)]
        self.lines, self.texts, self.counts = {}, {}, {}
        try:
            self.read_document()
        except (Ended, IndexError, RecursionError):
            pass

    def note(self, place, start):
        """Writes down where a place begins; the first time counts."""
        self.lines.setdefault(place, bisect.bisect_left(self.breaks, start) + 1)

    def skip(self, blanks):
        """Goes on behind white space and comments."""
        while self.at < len(self.text):
            if self.text[self.at] in blanks:
                self.at += 1
            elif self.text[self.at] == "#" and "\n" in blanks:
                line = bisect.bisect_left(self.breaks, self.at)
                self.at = self.breaks[line] if line < len(self.breaks) else len(self.text)
            else:
                return

    def taken(self, sign):
        """Whether the text goes on with a sign, which is taken then."""
        found = self.text.startswith(sign, self.at)
        self.at += len(sign) if found else 0
        return found

    def wanted(self, sign):
        if not self.taken(sign):
            raise Ended

    def read_document(self):
        """All headers and keys."""
        place = ""
        self.skip(BLANKS)
        while self.at < len(self.text):
            start = self.at
            if self.taken("["):
                is_array = self.taken("[")
                place = self.header(self.keys(), is_array, start)
                self.wanted("]]" if is_array else "]")
            else:
                self.read_pair(place)
            self.skip(BLANKS)

    def header(self, keys, is_array, start):
        """The place of the table that a header begins."""
        place = ""
        for number, key in enumerate(keys, 1):
            place = placed(place, key)
            self.note(place, start)
            if is_array and number == len(keys):
                self.counts[place] = self.counts.get(place, 0) + 1
            if place in self.counts:
                place = placed(place, self.counts[place] - 1)
                self.note(place, start)
        return place

    def keys(self):
        """The parts of a dotted key."""
        found = []
        while True:
            self.skip(" \t")
            bare = BARE.match(self.text, self.at)
            if bare:
                found.append(bare[0])
                self.at = bare.end()
            elif self.text[self.at] in "\"'":
                found.append(self.string())
            else:
                raise Ended
            self.skip(" \t")
            if not self.taken("."):
                return found

    def string(self):
        """A string of one of the four kinds."""
        for sign in ('"""', "'''", '"', "'"):
            if self.taken(sign):
                break
        start = self.at
        while not self.text.startswith(sign, self.at):
            if self.at >= len(self.text):
                raise Ended
            self.at += 2 if sign[0] == '"' and self.text[self.at] == "\\" else 1
        found = self.text[start : self.at]
        self.at += len(sign)
        return opened(found) if sign[0] == '"' else found

    def read_pair(self, place):
        """A key and its value."""
        start = self.at
        for key in self.keys():
            place = placed(place, key)
            self.note(place, start)
        self.wanted("=")
        self.skip(" \t")
        self.read_value(place)

    def read_value(self, place):
        """A value: the places in it, or its text."""
        self.note(place, self.at)
        if self.taken("["):
            self.read_list("]", lambda number: self.read_value(placed(place, number)))
        elif self.taken("{"):
            self.read_list("}", lambda _: self.read_pair(place))
        elif self.text[self.at] in "\"'":
            self.texts[place] = self.string()
        else:
            found = re.compile(r"[^\],}#\r\n]+").match(self.text, self.at)
            if not found:
                raise Ended
            self.texts[place], self.at = found[0].strip(), found.end()

    def read_list(self, end, read):
        """The entries of an array or of an inline table, up to its end."""
        number = 0
        self.skip(BLANKS)
        while not self.taken(end):
            read(number)
            number += 1
            self.skip(BLANKS)
            if not self.taken(",") and not self.text.startswith(end, self.at):
                raise Ended
            self.skip(BLANKS)

    def line(self, place):
        """The line of a place; that of the table or array that lacks it where it is missing; None where nothing of it
        is there."""
        while place:
            if place in self.lines:
                return self.lines[place]
            place = place[: max(place.rfind("."), place.rfind("["), 0)]
        return None

    def owner(self, place):
        """The words for the server or flow that a place lies in, with its name: `flow video`; None where it lies in
        none, or in one that is not there."""
        found = re.match(r"(server|flow)\[[0-9]+\]", place)
        if not found or found[0] not in self.lines:
            return None
        name = self.texts.get(placed(found[0], "name"))
        return f"{found[1]} {name}" if name else f"{found[1]} without a name"

    def named(self, kind, name):
        """The place of the server or flow of a name; None where there is none."""
        for place, text in self.texts.items():
            if text == name and re.fullmatch(rf"{kind}\[[0-9]+\]\.name", place):
                return place.removesuffix(".name")
        return None
