"""Which cells of a table count."""

import re
from dataclasses import dataclass, field
from decimal import Decimal, InvalidOperation

PRESENT, ABSENT, UNKNOWN = "present", "absent", "unknown"
DIGITS = re.compile(r"[0-9]+")
NUMBER = re.compile(r"[+-]?([0-9]+([.,][0-9]*)?|[.,][0-9]+)([eE][+-]?[0-9]+)?")
# Names of columns and lines that are hardly finds.
LIKE_A_SUM = re.compile(r"(grand )?totals?|sums?|summen?|gesamt|insgesamt|anzahl|count|counts|n|id|nr\.?|no\.?|nummer|number|somme|suma|totale?|"
                        r"years?|jahre?|datum|dates?|datierung|ann[eé]e", re.I)


def number(text):
    """A number as people write it, with a point or a comma, or None."""
    try:
        return Decimal(text.replace(",", ".")) if NUMBER.fullmatch(text) else None
    except InvalidOperation:
        return None


@dataclass
class Marks:
    """What counts as present and what as absent. Without words of the user's: as in a `table` of pq, x and whole numbers above 0 count."""

    present: list = field(default_factory=list)
    absent: list = field(default_factory=list)

    def said(self):
        """The marks in words."""
        given = ", ".join(repr(one) for one in self.present) if self.present else "x, X and whole numbers above 0"
        lacking = "".join(f", {one!r}" for one in self.absent)
        return f"cells that count: {given}; cells that don't: blank, 0{lacking}"

    def judge(self, cell):
        """Whether a cell counts."""
        if cell == "" or cell in self.absent or (DIGITS.fullmatch(cell) and not cell.strip("0")):
            return ABSENT
        if not self.present:
            return PRESENT if cell in ("x", "X") or DIGITS.fullmatch(cell) else UNKNOWN
        if any(self.meets(cell, one) for one in self.present):
            return PRESENT
        is_judged = any(one.startswith(">") for one in self.present) and number(cell) is not None
        return ABSENT if is_judged else UNKNOWN

    @staticmethod
    def meets(cell, mark):
        """Whether a cell is this mark, or a number above the one that the mark names behind `>`."""
        if mark.startswith(">"):
            value, bound = number(cell), number(mark[1:])
            return value is not None and bound is not None and value > bound
        return cell == mark


def is_like_years(cells):
    """Whether cells are years, two or more."""
    filled = [cell for cell in cells if cell]
    return len(filled) > 1 and all(re.fullmatch(r"1[0-9]{3}|20[0-9]{2}", cell) for cell in filled)
