"""What a terminal shows of what was written to it, by a reading of its own."""

import re


def columns_of(letter: str) -> int:
    """How many columns a letter of these trials takes: Chinese ones take two."""
    return 2 if "\u4e00" <= letter <= "\u9fff" else 1


class Screen:
    """What a terminal of so many columns and lines shows of what was written to it: lines, with those that left it."""

    def __init__(self, columns: int, lines: int) -> None:
        self.columns, self.lines = columns, lines
        self.rows: list[str] = [""]
        self.top, self.row, self.column, self.kept = 0, 0, 0, (0, 0)

    def write(self, text: str) -> None:
        for part in re.findall(r"\x1b\[[0-9;?]*[A-Za-z]|\x1b[78]|[\x00-\x1f]|[^\x00-\x1f]+", text):
            if part == "\x1b7":
                self.kept = self.row, self.column
            elif part == "\x1b8":
                self.row, self.column = self.kept
            elif part.startswith("\x1b["):
                self.control(int(part[2:-1].split(";")[0] or 1), part[-1])
            elif part == "\n":
                self.feed()
            elif part == "\r":
                self.column = 0
            else:
                assert part.isprintable(), f"a control goes to the terminal: {part!r}"
                self.put(part)

    def control(self, number: int, what: str) -> None:
        if what == "F":
            self.row, self.column = max(self.row - number, self.top), 0
        elif what == "K":
            self.rows[self.row] = self.rows[self.row][: self.column]
        elif what == "J":
            self.rows = [*self.rows[: self.row], self.rows[self.row][: self.column]]
        else:
            assert what == "m", f"an unknown control: {what}"

    def feed(self) -> None:
        self.row, self.column = self.row + 1, 0
        if self.row == len(self.rows):
            self.rows.append("")
        self.top = max(self.top, self.row - self.lines + 1)

    def put(self, text: str) -> None:
        for letter in text:
            if self.column + columns_of(letter) > self.columns:
                self.feed()
            row = self.rows[self.row]
            self.rows[self.row] = row[: self.column].ljust(self.column) + letter + row[self.column + 1 :]
            self.column += columns_of(letter)

    def text(self) -> str:
        return "\n".join(self.rows)
