"""The part of cribplan-many that decides. Its words are the paths of cribplan and of cribsheet, which may be empty, and
then those of the recipe.
"""

import csv
import os
import re
import signal
import subprocess
import sys
import threading
import time
from concurrent.futures import ThreadPoolExecutor, as_completed
from contextlib import suppress
from functools import partial
from pathlib import Path
from typing import NamedTuple, NoReturn

from tidy import decoded, plain, say, words_of

NAME = os.environ["name"]
CRIBPLAN, SHEETS, *WORDS = sys.argv[1:]
MOST_BYTES = 8_388_608  # of an input
COLUMNS = ("dealer", "own", "opp", "starter", "hold", "throw", "goal", "played")
MORE_COLUMNS = ("answer", "detail", "card", "beaten", "milliseconds", "words")
COLUMN_OF_LINE = ("cells", "dealer", "dealer", "own", "starter", "hold", "throw", "goal", "played")  # of a problem
ANSWERS = re.compile(
    r"solve (0 plan 1|1 none)|try [01] plan 1|check (0 holds|1 fails .*)|replay 0 play .*|"
    r"beaten (0 beaten 0|1 beaten \d+) of .*|follow (0 reached|1 (open|stuck|lost|short))|\w+ 2 refused line .*"
)
DATE = r"(?i)\d[-. /](?:jan|feb|mar|apr|may|jun|jul|aug|sep|oct|nov|dec)|\d[-/.]\d\d?[-/.]\d\d"  # of a spreadsheet
csv.field_size_limit(2**31 - 1)
running: set[subprocess.Popen[str]] = set()
keeping = threading.RLock()  # held while an answer is written; a second signal takes it once more


class Fault(Exception):
    """There is no answer; a number says why, or `-`."""


class Answer(NamedTuple):
    """An answer, milliseconds or `-` if it was kept, and the words beside it."""

    lines: list[str]
    spent: str = "-"
    words: str = ""

    def text(self) -> str:
        return "".join(f"{line}\n" for line in self.lines)


def refuse(text: str) -> NoReturn:
    """Ends, since the words of the command line are wrong, or a table."""
    say(text)
    sys.exit(2)


def end(number: int, _: object) -> NoReturn:
    """Ends for a signal, with the programs that are running. No answer is left half written."""
    with keeping:
        for child in [*running]:
            child.kill()
        os._exit(128 + number)


def ask(program: str, command: str, text: str) -> tuple[int, Answer]:
    """Asks a program. A status counts only with an answer that belongs to it."""
    pipe, began = subprocess.PIPE, time.monotonic()
    modes = {"text": True, "encoding": "utf-8", "errors": "surrogateescape"}
    with subprocess.Popen([program, command], stdin=pipe, stdout=pipe, stderr=pipe, **modes) as child:
        running.add(child)
        answer, words = child.communicate(text)
        running.discard(child)
    lines = answer.splitlines() or [""]
    if ANSWERS.fullmatch(f"{command} {child.returncode} {lines[0]}"):
        return child.returncode, Answer(lines, str(round(1000 * (time.monotonic() - began))), words)
    say(f"{words}{NAME}: {Path(program).name} {command} ended with status {child.returncode} and no answer", head="")
    raise Fault(lines[0].partition("fault ")[2] or "-")


def keep(file: str, text: str) -> None:
    """Writes a file, whole or not at all, whatever another run does."""
    part = Path(f"{file}.part.{os.getpid()}-{threading.get_ident()}")
    with keeping:
        try:
            os.makedirs(os.path.dirname(file) or ".", exist_ok=True)
            part.write_text(text, encoding="utf-8", errors="surrogateescape")
            part.replace(file)
        except OSError as error:
            part.unlink(missing_ok=True)
            say(f"{file} can't be written: {error.strerror}")
            raise Fault("-") from error


def decide(file: str, command: str, text: str, program: str = CRIBPLAN) -> Answer:
    """Returns the answer that is kept beside a file, if it isn't older, or asks and keeps it."""
    for status in range(3):
        kept = Path(f"{file}.{command}.{status}")
        with suppress(OSError):
            if kept.stat().st_size and kept.stat().st_mtime_ns >= os.stat(file).st_mtime_ns:
                return Answer(kept.read_text().splitlines())
    status, answer = ask(program, command, text)
    keep(f"{file}.{command}.{status}", answer.text())
    for other in {0, 1, 2} - {status}:
        Path(f"{file}.{command}.{other}").unlink(missing_ok=True)
    return answer


def row_of(file: str) -> list[str]:
    """Decides a file: the command, the answer, its nodes or the ending, and milliseconds."""
    command = "-"
    try:
        if not os.path.isfile(file):
            raise FileNotFoundError(2, "it isn't there, or no file", file)
        text = open(file, "rb").read(MOST_BYTES + 1).decode(errors="surrogateescape")
        has_plan, has_game = (re.search(f"^{section} ", text, re.M) for section in ("plan", "game"))
        command = ("follow" if has_game else "check") if has_plan else "replay" if has_game else "solve"
        answer = decide(file, command, text)
    except OSError as error:
        say(f"{file} can't be read: {error.strerror}")
        return [command, "fault", "9", "-"]
    except Fault as fault:
        return [command, "fault", str(fault), "-"]
    return [command, *said_of(answer), answer.spent]


def said_of(answer: Answer) -> tuple[str, str]:
    """The columns `answer` and `detail`."""
    first, *others = answer.lines
    word, _, rest = (others[0] if first == "plan 1" else first).partition(" ")
    return (first, others[-1]) if word == "play" else (word.replace("nodes", "plan"), rest or "-")


def decide_all(lanes: int, jobs: list[partial[list[str]]]) -> list[list[str]]:
    """Runs jobs side by side, and returns what each returns, in their order."""
    with ThreadPoolExecutor(lanes) as pool:
        rows = [pool.submit(job) for job in jobs]
        for done, _ in enumerate(as_completed(rows), 1):
            if done % (1 + len(rows) // 20) == 0 or done == len(rows):
                say(f"{done} of {len(rows)}")
    return [row.result() for row in rows]


def table_text(file: str) -> str:
    """The text of a table, which a workbook is not."""
    data = Path(file).read_bytes()
    if data[:2] == b"PK":
        refuse(f"{file} is a workbook; save it as CSV")
    return decoded(data)


def place(line: int) -> str:
    """What a row of a table has in a line of its problem."""
    return f"turn {line - 8}" if line > 8 else f"the column {COLUMN_OF_LINE[line]}"


def words_of_refusal(text: str) -> str:
    """The column of a row that is refused, the turn, and what is wrong there."""
    _, (lines, _, words) = ask(CRIBPLAN, "solve", text)
    line = int(re.findall(r"\d+", lines[0])[0])
    column = f"played, {place(line)}" if line > 8 else COLUMN_OF_LINE[line]
    if column == "own":  # of two scores the first is wrong if it is refused beside another one
        _, other = ask(CRIBPLAN, "solve", re.sub(r"(?m)^(score \S+).*", r"\1 0", text))
        column = "own" if other.lines[0].startswith("refused line 3:") else "opp"
    said = re.sub("on (?=(this )?line)", "in ", words.partition("\n")[0].rpartition(f"line {line}: ")[2])
    said = re.sub("(?<=this |.the )line", "turn" if line > 8 else "cell", said)
    return f"{column}: " + re.sub(r"line (\d+)", lambda at: place(int(at[1])), said)


def decide_row(file: str, head: str, text: str) -> list[str]:
    """Decides the problem of a row, and returns the columns that are added. A text that is none is what is wrong."""
    if not text.startswith("problem"):
        return ["refused", "-", "-", "-", "-", head + text]
    try:
        if not os.path.isfile(file) or Path(file).read_text(errors="surrogateescape") != text:
            keep(file, text)
        plan = answer = decide(file, "solve", text)
        (said, detail), beaten, words = said_of(answer), "-", "-"
        if said == "refused":
            detail, words = detail.partition(": ")[2], head + words_of_refusal(text)
        elif said == "none" and SHEETS:
            plan = decide(file, "try", text, SHEETS)
            beaten = decide(file, "beaten", text + plan.text(), SHEETS).lines[0].partition(" ")[2]
        first = "".join(plan.lines[2:3]) if plan.lines[0] == "plan 1" else ""
        card = "look" if " see" in first else (first.split() or ["-"] * 3)[2]
        return [said, detail, card, beaten, answer.spent, words]
    except Fault as fault:
        return ["fault", str(fault), "-", "-", "-", "-"]


def mended(cell: str, column: str, row: str) -> str:
    """The words of a cell as they are meant. What has changed but blanks is reported."""
    words = words_of(plain(cell))  # the word of the column may be in front, as in a problem
    made = " ".join(words[len(words) > 1 and words[0].lower() == column :])
    if made != " ".join(cell.split()):
        say(f"{row}, {column}: {made}")
    return made


def problem_of(cells: dict[str, str], row: str) -> str:
    """The problem of a row, or what is wrong with the form of one of its cells, in a line."""
    words = {column: mended(cells[column], column, row) for column in COLUMNS if column in cells}
    for column in COLUMNS[:-1]:
        if not words[column]:
            return f"{column}: the cell is empty"
        if re.search(DATE, cells[column]):
            return f'{column}: "{cells[column]}" is a date; format the cells as text, and type this again'
        if column in COLUMNS[:4] and " " in words[column]:
            return f'{column}: "{words[column]}" is more than one word'
    played = re.sub(r"^(\d+|none|-)( |$)", "", words.get("played", ""))
    turns = [*filter(None, re.split(r" (?=own\b|opp\b)", played))]
    text = "problem 2/dealer {dealer}/score {own} {opp}/starter {starter}/hold {hold}/throw {throw}/goal {goal}/played "
    return "\n".join([text.format(**words).replace("/", "\n") + str(len(turns)), *turns, ""])


def decide_table(file: str, lanes: int) -> list[str]:
    """Prints a table with the answers to its rows, and returns the column of the answers."""
    try:
        lines = enumerate(re.split("\r?\n", table_text(file)), 1)
    except OSError as error:
        say(f"{file} can't be read: {error.strerror}")
        print("fault 9")
        sys.exit(3)
    is_row = re.compile(r'(?!sep=)[ ,;\t|"]*[^ ,;\t|"]').match
    (_, head), *lines = [(at, line) for at, line in lines if is_row(line)] or refuse(f"{file} is empty")
    sign = max(",;\t|", key=head.count)
    names = next(csv.reader([head], delimiter=sign))
    columns = [" ".join(words_of(plain(name))).lower() for name in names]
    for column in COLUMNS:
        if columns.count(column) > 1:
            refuse(f"{file} has two columns {column}")
        if column not in columns and column != "played":
            refuse(f"{file} has no column {column}. Its first row names the columns: {','.join(COLUMNS)}")
    jobs, rows = [], []
    for at, line in lines or refuse(f"{file} has no row below its first"):
        cells = next(csv.reader([line], delimiter=sign)) + [""] * len(names)
        while len(cells) > len(names) and not cells[-1]:
            cells.pop()
        if line.count('"') % 2:
            text = "a double quote is not closed"
        elif len(cells) > len(names):
            text = f'there are {len(cells)} cells, and {len(names)} columns; quote a cell that has "{sign}" in it'
        else:
            text = problem_of(dict(zip(columns, cells)), f"row {at} of {file}")
        jobs.append(partial(decide_row, f"{file}.rows/{at:06}.txt", f"row {at}, ", text))
        rows.append(cells[: len(names)])
    added = decide_all(lanes, jobs)
    printer = csv.writer(sys.stdout, delimiter=sign, lineterminator="\n")
    printer.writerows([names + [*MORE_COLUMNS], *map(list.__add__, rows, added)])
    return [row[0] for row in added]


def refuse_table(file: str) -> None:
    """Ends if a file looks like a table of positions, which is no input."""
    with suppress(OSError):
        front = table_text(file).partition("\n")[0] if os.path.isfile(file) else ""
        if re.search(r"\.[ct]sv$", file, re.I) or re.search("dealer.*[,;\t|]|[,;\t|].*dealer", front, re.I):
            refuse(f"{file} is a table; type {NAME} --rows {file}")


def files_in(folder: str) -> list[str]:
    """The files `*.txt` in a folder or below, but for what recipes keep."""
    found, tables = [], []
    for place, folders, names in os.walk(folder):
        folders[:] = [name for name in folders if not name.endswith((".kept", ".rows"))]
        for file in (os.path.join(place, name) for name in names):
            found += [file] * file.endswith(".txt")
            tables += [file] * file.lower().endswith((".csv", ".tsv"))
    if not found:
        table = "".join(f"; for a table of positions type {NAME} --rows {file}" for file in sorted(tables)[:1])
        say(f"there is no file *.txt in {folder}{table}")
    return sorted(found, key=os.fsencode)


def decide_files(files: list[str], lanes: int, is_one: bool) -> list[str]:
    """Prints a table with a row for each file, or one row alone, and returns the column of the answers."""
    rows = decide_all(lanes, [partial(row_of, file) for file in files])
    lines = [] if is_one or not files else [["file", "command", "answer", "nodes or ending", "milliseconds"]]
    for line in [*lines, *([re.sub("[\t\n]", "?", file), *row] for file, row in zip(files, rows))]:
        print(*line, sep="\t")
    return [row[1] for row in rows]


def main() -> int:
    """Reads the words, decides what they name, and returns the exit status."""
    words, files, table, is_one, lanes = [*WORDS], [], "", False, len(os.sched_getaffinity(0))
    while words:
        word = words.pop(0)
        if word == "-j":
            if not re.fullmatch("[1-9][0-9]{0,3}", words[0] if words else ""):
                refuse("-j needs a number of processes, 1 to 9999" + (f', and not "{words[0]}"' if words else ""))
            lanes = int(words.pop(0))
        elif word == "--rows":
            if table or not words:
                refuse("--rows needs one table, such as TABLE.csv")
            table = words.pop(0)
        elif word == "--one":
            is_one = len(words) == 1 or refuse("--one needs one file")
        else:
            files.append(word)
    wrong = [word for word in files if table or word.startswith("-")]
    if wrong or not files and not table:
        what = f"\"{wrong[0]}\" isn't expected here" if wrong else "a word is missing"
        refuse(f"{what}. Type one of these:\n{os.environ['usage']}")
    for file in files:
        refuse_table(file)
    found = [files_in(file) if os.path.isdir(file) and not is_one else [file] for file in files]
    answers = decide_table(table, lanes) if table else decide_files(sum(found, []), lanes, is_one)
    return 3 if "fault" in answers else 2 if "refused" in answers or [] in found else 0


sys.stdout.reconfigure(encoding="utf-8", errors="surrogateescape")
for signal_number in (signal.SIGHUP, signal.SIGINT, signal.SIGTERM):
    if signal.getsignal(signal_number) != signal.SIG_IGN:
        signal.signal(signal_number, end)
sys.exit(main())
