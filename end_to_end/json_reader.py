"""A reader of JSON as docs/FORMATS.md has it.

Python's `json` takes NaN, lone surrogates, numbers past the range of floating point and any depth, so this reader is its own.
"""

import math
import re

MOST_DEPTH = 127
BLANK = re.compile(r"[ \t\n\r]*")
STRING = re.compile(r'"((?:[^"\\\x00-\x1f]|\\["\\/bfnrt]|\\u[0-9a-fA-F]{4})*)"')
NUMBER = re.compile(r"-?(?:0|[1-9][0-9]*)(?:\.[0-9]+)?(?:[eE][+-]?[0-9]+)?")
WORD = re.compile(r"true|false|null")
ESCAPE = re.compile(r"\\(?:u([0-9a-fA-F]{4})|(.))")
SHORT = {"b": "\b", "f": "\f", "n": "\n", "r": "\r", "t": "\t"}


class NoJson(Exception):
    """The bytes are no value in JSON."""


def unescaped(text):
    """The characters that the text of a string stands for; two surrogates in turn are one character."""
    plain = ESCAPE.sub(lambda match: chr(int(match[1], 16)) if match[1] else SHORT.get(match[2], match[2]), text)
    try:
        return plain.encode("utf-16-le", "surrogatepass").decode("utf-16-le")
    except UnicodeDecodeError as fault:
        raise NoJson from fault


class Json:
    """A text, and how far it is read."""

    def __init__(self, text):
        self.text = text
        self.place = 0

    def found(self, pattern):
        """Goes past what the pattern matches here, if it does."""
        match = pattern.match(self.text, self.place)
        if match:
            self.place = match.end()
        return match

    def sign(self, signs):
        """Goes past one of these signs, with the blanks on both sides of it, and tells which; none where there is none."""
        self.found(BLANK)
        sign = self.text[self.place:self.place + 1]
        if not sign or sign not in signs:
            return ""
        self.place += 1
        self.found(BLANK)
        return sign

    def demand(self, signs):
        """Goes past one of these signs, and tells which."""
        sign = self.sign(signs)
        if not sign:
            raise NoJson
        return sign

    def string(self):
        """Goes past a string."""
        match = self.found(STRING)
        if not match:
            raise NoJson
        return unescaped(match[1])

    def value(self, depth):
        """Goes past a value that stands in so many arrays and objects. What is no array, object or string is None."""
        if self.text.startswith(("[", "{"), self.place) and depth == MOST_DEPTH:
            raise NoJson
        if self.sign("["):
            return self.array(depth + 1)
        if self.sign("{"):
            return self.object(depth + 1)
        if self.text.startswith('"', self.place):
            return self.string()
        if self.found(WORD):
            return None
        number = self.found(NUMBER)
        if not number or math.isinf(float(number[0])):
            raise NoJson
        return None

    def array(self, depth):
        """Goes past an array whose bracket was read."""
        if self.sign("]"):
            return []
        values = [self.value(depth)]
        while self.demand(",]") == ",":
            values.append(self.value(depth))
        return values

    def object(self, depth):
        """Goes past an object whose brace was read. Of two equal keys the last counts."""
        members = {}
        if self.sign("}"):
            return members
        while True:
            key = self.string()
            self.demand(":")
            members[key] = self.value(depth)
            if self.demand(",}") == "}":
                return members


def json_value(content):
    """The one value in JSON that the bytes are."""
    try:
        reader = Json(content.decode("utf-8"))
    except UnicodeDecodeError as fault:
        raise NoJson from fault
    reader.found(BLANK)
    value = reader.value(0)
    reader.found(BLANK)
    if reader.place != len(reader.text):
        raise NoJson
    return value
