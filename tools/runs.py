"""Writes the stored runs: what `gap` and `survey` read and what docs/RULES.md has them print.

    python3 tools/runs.py examples

In the runs of failed_reads memory runs out while the input is read, and nothing is printed. In those of faulty_sheets it
runs out at the sixth allocation, which a sheet at fault after one edit does not come to, since no map is taken for it.

Nothing of the library is used: the answers are worked out here from the rules alone, by chessboard.
"""
import heapq
import pathlib
import sys

LONGEST = 32768
FIGURES = {"plate": 2, "cell": 4, "bar": 2, "enrol": 2}
CALLS = {"measure": 1, "distance": 3, "nearest": 3, "way": 3, "gap": 0, "route": 0, "seal": 0, "break": 0}
LAYERS = {1: "plate", 2: "plate", 3: "plate", 4: "plate", 5: "plate", 12: "figure"}
DONE = {"cell": "set", "bar": "barred", "enrol": "enrolled"}


class Fault(Exception):
    """A line at fault: its number, the field, the number of the refusal."""

    def text(self):
        line, field, number = self.args
        return f"fault\t{LAYERS.get(number, 'sheet')}\t{line}\t{field}\t{number}\n"


class Board:
    """A plate, its tables, and the maps that are current."""

    def __init__(self, rows, columns):
        self.rows, self.columns = rows, columns
        self.cells = [(0, 0, False)] * (rows * columns)
        self.groups = [0] * 65
        self.maps = {}
        self.sealed = False

    def off(self, row, column):
        """The first of two figures that is not on the plate, counted from 1, or 0."""
        return 1 if row >= self.rows else 2 if column >= self.columns else 0

    def edit(self, word, f):
        """Makes an edit, or answers the field at fault and its refusal."""
        if word == "enrol":
            if not 1 <= f[0] <= 64 or f[1] > 2:
                return (1, 4) if not 1 <= f[0] <= 64 else (2, 5)
            self.groups[f[0]] = f[1]
        else:
            if self.off(*f[:2]):
                return self.off(*f[:2]), 3
            if word == "cell" and f[3] > 64:
                return 4, 4
            self.cells[f[0] * self.columns + f[1]] = (f[2], f[3], False) if word == "cell" else (0, 0, True)
        self.maps = {}
        return None

    def neighbours(self, cell):
        """The open neighbours of a cell."""
        row, column = divmod(cell, self.columns)
        near = [(row + i, column + j) for i in (-1, 0, 1) for j in (-1, 0, 1) if i or j]
        inside = [r * self.columns + c for r, c in near if 0 <= r < self.rows and 0 <= c < self.columns]
        return [other for other in inside if not self.cells[other][2]]

    def measure(self, group):
        """Ranks the cells; a record is length, link and pad. Answers the cells reached and the steps put to the gauge."""
        source = [pad if pad and not barred and self.groups[pad] == group else 0 for _, pad, barred in self.cells]
        offers = {cell: (0, cell) for cell, pad in enumerate(source) if pad}
        queue = [(0, cell) for cell in offers]
        heapq.heapify(queue)
        records, steps = {}, 0
        while queue:
            length, cell = heapq.heappop(queue)
            if cell in records:
                continue
            link = offers[cell][1]
            records[cell] = (length, link, source[cell] or records[link][2])
            for other in self.neighbours(cell):
                steps += 1
                carried = length + abs(self.cells[cell][0] - self.cells[other][0]) + 1
                if other not in offers or carried < offers[other][0]:
                    offers[other] = (carried, cell)
                    heapq.heappush(queue, (carried, other))
        self.maps[group] = records
        return len(records), steps

    def sums(self):
        """The sum of the distances of each cell that both maps reach."""
        first, second = self.maps[1], self.maps[2]
        return {cell: first[cell][0] + second[cell][0] for cell in first if cell in second}

    def read(self, word, f):
        """The answer of a reading, as printed."""
        cell = f[0] * self.columns + f[1] if f else 0
        if word in ("gap", "route"):
            sums = self.sums()
            least = min(sums.values(), default=None)
            marks = sorted(cell for cell, total in sums.items() if total == least)
            return str("none" if least is None else least) if word == "gap" else "\t".join(map(str, [len(marks)] + marks))
        record = self.maps[f[2]].get(cell)
        if word == "way":
            way = [cell] if record else []
            while way and self.maps[f[2]][way[-1]][1] != way[-1]:
                way.append(self.maps[f[2]][way[-1]][1])
            return "\t".join(map(str, [len(way)] + way))
        return "unreached" if record is None else str(record[0] if word == "distance" else record[2])

    def refused(self, word, f):
        """The number by which a measuring, a reading or a seal is sent back, or 0."""
        if word in ("distance", "nearest", "way") and self.off(*f[:2]):
            return 3
        if word in ("measure", "distance", "nearest", "way") and f[-1] not in (1, 2):
            return 5
        needed = {"measure": [], "gap": [1, 2], "route": [1, 2], "seal": [1, 2], "break": []}.get(word) or f[2:]
        return 6 if word not in ("measure", "break") and any(group not in self.maps for group in needed) else 0

    def call(self, word, f):
        """Makes a call and answers what is printed behind it."""
        if (word == "break") != self.sealed and (word in FIGURES or word in ("measure", "seal", "break")):
            return "not allowed"
        if word in FIGURES:
            back = self.edit(word, f)
            return f"refused\t{back[1]}" if back else DONE[word]
        if self.refused(word, f):
            return f"refused\t{self.refused(word, f)}"
        if word in ("seal", "break"):
            self.sealed = word == "seal"
            return "sealed" if self.sealed else "broken"
        if word == "measure":
            return "reached\t{}\tsteps\t{}".format(*self.measure(f[0]))
        return self.read(word, f)


def lines_of(text):
    """The lines of an input, each with whether it is ended."""
    parts = text.split("\n")
    return [(part, True) for part in parts[:-1]] + ([(parts[-1], False)] if parts[-1] else [])


def fields_of(number, line, ended, opened, words):
    """A line's word and figures."""
    word, *fields = line.split("\t")
    if not ended or len(fields) != words.get(word, -1):
        raise Fault(number, 0, 11)
    if opened == (word == "plate"):
        raise Fault(number, 0, 13)
    for at, field in enumerate(fields):
        if not field.isascii() or not field.isdigit() or (field[0] == "0" and field != "0") or int(field) > 65535:
            raise Fault(number, at + 1, 12)
    return word, [int(field) for field in fields]


def read_line(board, number, line, ended, words, room):
    """Carries out a line of a sheet: answers the board, the word and the figures."""
    word, figures = fields_of(number, line, ended, board is not None, words)
    if word == "plate":
        bad = next((at + 1 for at in (0, 1) if not 1 <= figures[at] <= 256), 0)
        if bad or figures[0] * figures[1] > room:
            raise Fault(number, bad, 1 if bad else 2)
        return Board(*figures), word, figures
    back = board.edit(word, figures)
    if back:
        raise Fault(number, *back)
    return board, word, figures


def gap(text):
    """What `gap` prints."""
    try:
        if len(text) > LONGEST:
            raise Fault(0, 0, 14)
        board = None
        for number, (line, ended) in enumerate(lines_of(text), 1):
            board, _, _ = read_line(board, number, line, ended, FIGURES, 256)
        if board is None:
            raise Fault(1, 0, 13)
    except Fault as fault:
        return fault.text()
    board.measure(1)
    board.measure(2)
    return f"gap\t{board.read('gap', [])}\n"


def survey_lines(text, printed):
    """Carries out the lines of a survey, and adds what is printed of each."""
    board, of_sheet, words = None, True, {**FIGURES, **CALLS}
    for number, (line, ended) in enumerate(lines_of(text), 1):
        of_sheet = of_sheet and line.split("\t")[0] in FIGURES
        if of_sheet:
            board, word, figures = read_line(board, number, line, ended, FIGURES, 65536)
            answer = "opened" if word == "plate" else DONE[word]
        else:
            word, figures = fields_of(number, line, ended, board is not None, words)
            answer = board.call(word, figures)
        printed.append("\t".join([word, *map(str, figures), answer]) + "\n")
    if board is None:
        raise Fault(1, 0, 13)


def survey(text):
    """What `survey` prints."""
    printed = []
    try:
        if len(text) > LONGEST:
            raise Fault(0, 0, 14)
        survey_lines(text, printed)
    except Fault as fault:
        printed.append(fault.text())
    return "".join(printed)


def rows(*lines):
    """Lines of fields that are parted by blanks here."""
    return "".join(line.replace(" ", "\t") + "\n" for line in lines)


# A 4 x 5 board with some relief, and calls that measure and read a board whose pads stand at its corners.
SMALL = rows("plate 4 5", "cell 0 0 3 1", "cell 3 4 9 2", "cell 1 1 7 0", "bar 2 2", "enrol 1 1", "enrol 2 2")
MEASURE = rows("measure 1", "measure 2")


def readings(row, column):
    """The readings of a board whose second pad stands at a cell."""
    at = f"{row} {column} 1"
    return rows(f"distance {at}", f"nearest {at}", "distance 0 0 2", f"way {at}", "gap", "route")


def padded(head, tail, length):
    """A text of exactly so many bytes: lines that set the height of the cell at (3, 0) stand between head and tail."""
    lines, height = [], 10
    room = length - len(head) - len(tail)
    while room > 40:
        lines.append(f"cell\t3\t0\t{height}\t0\n")
        room -= len(lines[-1])
        height = height % 97 + 10
    # The last two lines take up what is left, by heights of more or fewer digits.
    for digits in (room // 2, room - room // 2):
        lines.append("cell\t3\t0\t{}\t0\n".format("54321"[: digits - len("cell\t3\t0\t\t0\n")]))
    text = head + "".join(lines) + tail
    assert len(text) == length, (length, len(text))
    return text


def snake(height, width):
    """A board on which one way winds along each second row."""
    walls = [(row, column) for row in range(1, height, 2) for column in range(width) if column != (0 if row % 4 == 3 else width - 1)]
    head = rows(f"plate {height} {width}", "cell 0 0 0 1", f"cell {height - 1} 0 0 2", "enrol 1 1", "enrol 2 2")
    return head + rows(*(f"bar {row} {column}" for row, column in walls)) + MEASURE + readings(height - 1, 0)


def square(side):
    """A square board with a pad in two corners, a ridge with a gap in it, and a hill."""
    last, middle = side - 1, side // 2
    head = rows(f"plate {side} {side}", "cell 0 0 5 1", f"cell {last} {last} 11 2", "enrol 1 1", "enrol 2 2")
    ridge = rows(*(f"bar {middle} {column}" for column in range(middle, middle + 9)), f"cell {middle} 3 300 0")
    return head + ridge + MEASURE + readings(last, last)


def gap_cases():
    """The inputs of `gap` by name."""
    filled = rows(*(f"cell {row} {column} {row * column % 7} 0" for row in range(16) for column in range(16) if (row + column) % 3 == 1))
    corners = rows("cell 0 0 0 1", "cell 15 15 4 2", "enrol 1 1", "enrol 2 2")
    return {
        "none": rows("plate 3 3", "cell 0 0 0 1", "cell 2 2 0 2", "bar 0 1", "bar 1 0", "bar 1 1", "enrol 1 1", "enrol 2 2"),
        "fault_of_the_plate": rows("plate 2 3", "cell 0 0 0 1", "cell 0 3 0 1", "enrol 1 1"),
        "many_digits": rows("plate 1 3", "cell 0 0 0 1", "cell 0 1 65535 0", "cell 0 2 0 2", "enrol 1 1", "enrol 2 2"),
        "largest_plate": rows("plate 16 16") + filled + corners,
        "more_than_256_cells": rows("plate 2 129", "cell 0 0 0 1"),
        "257_columns": rows("plate 1 257"),
        "empty": "",
        "longest": padded(SMALL, rows("cell 0 0 40 1"), LONGEST),
        "longest_and_a_byte": padded(SMALL, rows("cell 0 0 40 1"), LONGEST) + "x",
        "over_40000_bytes": padded(SMALL, rows("cell 0 0 40 1"), 40961),
    }


def survey_cases():
    """The inputs of `survey` by name."""
    flat = rows("plate 16 16", "cell 8 0 0 1", "cell 8 15 0 2", "enrol 1 1", "enrol 2 2") + MEASURE
    many = rows(*(f"distance {at // 16} {at % 16} {1 + at % 2}" for at in range(100)))
    longest = padded(SMALL + MEASURE, MEASURE + rows("gap"), LONGEST)
    return {
        "empty": "",
        "call_before_a_plate": rows("gap", "plate 2 2", "measure 1"),
        "unknown_word_before_a_plate": rows("walk 0 0", "plate 2 2", "measure 1"),
        "largest_plate": square(256),
        "plate_of_4096_cells": square(64),
        "way_of_more_than_256_cells": snake(31, 20),
        "way_of_more_than_3000_cells": snake(63, 103),
        "way_of_100_cells": rows("plate 1 100", "cell 0 0 0 1", "cell 0 99 0 2", "enrol 1 1", "enrol 2 2") + MEASURE + readings(0, 99),
        "more_than_45_calls": flat + many + rows("gap"),
        "more_than_8000_calls": rows("plate 1 1") + MEASURE + rows("gap") * 8184,
        "route_of_more_than_64_marks": flat + rows("route"),
        "longest": longest,
        "longest_and_a_byte": longest + "x",
    }


def write(folder, cases, answer):
    """Writes each input of a program, and beside it what is printed."""
    folder.mkdir(parents=True, exist_ok=True)
    for name, text in cases.items():
        (folder / name).write_text(text)
        (folder / f"{name}.stdout").write_text(answer(text))


def main():
    folder = pathlib.Path(sys.argv[1])
    of_gap, of_survey = gap_cases(), survey_cases()
    write(folder / "runs" / "gap", of_gap, gap)
    write(folder / "runs" / "survey", of_survey, survey)
    write(folder / "failed_reads" / "gap", {"second_part": of_gap["largest_plate"]}, lambda _: "")
    write(folder / "failed_reads" / "survey", {"second_part": of_survey["more_than_45_calls"]}, lambda _: "")
    write(folder / "faulty_sheets" / "survey", {"fault_after_an_edit": rows("plate 1 1", "bar 0 0", "")}, survey)


main()
