"""Reads the element trees of sheet files with the place of each element in its file, for the scripts beside this one."""

import json
import re
import xml.parsers.expat

# elements that eds passes over, with all that they hold
PASSED_OVER = {
    "Device", "LongDescription", "Metadata", "MetadataSet", "MetadataValueSet", "NominalRangeSet", "SafeRangeSet",
    "Semantics", "include",
}  # fmt: skip
TOKEN = re.compile(r'"(?:[^"\\]|\\.)*"|[\[\]{}]|[^\s"\[\]{},:]+', re.S)


class Element:
    """An element of a file: its number in the order of opening, its name without a prefix, its attributes, the element
    around it, and where its text begins and ends."""

    def __init__(self, number, above, begins):
        self.number, self.above, self.begins = number, above, begins
        self.name, self.attributes, self.ends = "", {}, None

    def path(self):
        """The elements from the root down to this one."""
        return [*(self.above.path() if self.above else []), self]

    def label(self):
        """The name, and the attribute that names what is declared."""
        name = self.attributes.get("name")
        return f'{self.name} "{name}"' if isinstance(name, str) else self.name


class File:
    """A sheet file: its elements in order, and its text, which is read where its octets aren't given. A file that is no JSON has a
    complaint and few elements."""

    def __init__(self, name, octets=None):
        self.name, self.elements, self.complaint = name, [], None
        if octets is None:
            with open(name, "rb") as file:
                octets = file.read()
        self.text = octets.decode("utf-8", errors="replace")
        if self.text.lstrip().startswith("<"):
            self.read_xml()
        else:
            self.read_json()

    def place(self, at):
        """The line and the column of a place in the text, from 1."""
        return self.text.count("\n", 0, at) + 1, at - (self.text.rfind("\n", 0, at) + 1) + 1

    def shown(self, element):
        """The element's text, in one line, cut off where it is long."""
        text = " ".join(self.text[element.begins : element.ends].split())
        return text if len(text) <= 300 else text[:296] + " ..."

    def described(self, number):
        """The element of a number with its line and column, the elements around it and its text; None where there is none."""
        complaint = [self.complaint] if number == 0 and self.complaint else []
        if number >= len(self.elements):
            return f"{self.name}: {self.complaint}" if complaint else None
        found = self.elements[number]
        line, column = self.place(found.begins)
        first = f"{self.name}:{line}:{column}: " + " / ".join(it.label() for it in found.path())
        return "\n  ".join([first, self.shown(found), *complaint])

    def read_json(self):
        try:
            json.loads(self.text)
        except ValueError as error:
            self.complaint = str(error)
        # the elements that are open, each with the number of its items so far; and how deep in objects the text is
        open_elements, depth = [], 0
        for token in TOKEN.finditer(self.text):
            word, at = token[0], token.start()
            if word == "}":
                depth = max(depth - 1, 0)
                continue
            if word == "]" and depth == 0:
                if open_elements:
                    open_elements.pop()[0].ends = token.end()
                continue
            if depth > 0:
                depth += word == "{"
                continue
            above, items = open_elements[-1] if open_elements else (None, 0)
            if open_elements:
                open_elements[-1][1] += 1
            if word == "{":
                depth = 1
                if items == 1 and above.name:
                    above.attributes = self.attributes(at)
            elif word == "[":
                open_elements.append([Element(len(self.elements), above, at), 0])
                self.elements.append(open_elements[-1][0])
            elif word.startswith('"') and above and items == 0:
                above.name = self.string(word).rpartition(":")[2]

    def string(self, word):
        try:
            return json.loads(word)
        except ValueError:
            return word

    def attributes(self, at):
        try:
            return json.JSONDecoder().raw_decode(self.text, at)[0]
        except ValueError:
            return {}

    def read_xml(self):
        parser, open_elements = xml.parsers.expat.ParserCreate(), []
        octets, met = self.text.encode(), [0, 0]

        def here():
            """The place in the text where the parser is. It only goes on, so each octet is counted once."""
            at = parser.CurrentByteIndex
            met[:] = at, met[1] + len(octets[met[0] : at].decode())
            return met[1]

        def begin(name, attributes):
            open_elements.append(Element(len(self.elements), open_elements[-1] if open_elements else None, here()))
            self.elements.append(open_elements[-1])
            open_elements[-1].name, open_elements[-1].attributes = name.rpartition(":")[2], attributes

        def end(_):
            at = here()
            # an element without content has no tag of its own at its end
            open_elements.pop().ends = self.text.find(">", at) + 1 if self.text.startswith("</", at) else at

        parser.StartElementHandler, parser.EndElementHandler = begin, end
        try:
            parser.Parse(octets, True)
        except xml.parsers.expat.ExpatError as error:
            self.complaint = str(error)
