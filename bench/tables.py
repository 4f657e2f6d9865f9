"""Tables as plain text or as Markdown."""

from __future__ import annotations

from dataclasses import dataclass

Value = str | int | float | None


@dataclass(frozen=True)
class Table:
    """A table: its title, a remark, its heads, and its rows. Where the first value of a row is a text, it is a name."""

    title: str
    remark: str
    heads: list[str]
    rows: list[list[Value]]


def value_text(value: Value) -> str:
    """A value as it is printed."""
    if value is None:
        return "-"
    if isinstance(value, float):
        return f"{value:,.2f}" if abs(value) < 100 else f"{value:,.0f}"
    return f"{value:,}" if isinstance(value, int) else value


def markdown(table: Table) -> str:
    """The table in Markdown."""
    numbers = [any(isinstance(row[column], int | float) for row in table.rows) for column in range(len(table.heads))]
    rule = ["---:" if number else "---" for number in numbers]
    cells = [table.heads, rule, *([value_text(value) for value in row] for row in table.rows)]
    lines = "".join(f"| {' | '.join(row)} |\n" for row in cells)
    return f"### {table.title}\n\n{table.remark}\n\n{lines}"


def plain(table: Table) -> str:
    """The table in columns."""
    cells = [table.heads, *([value_text(value) for value in row] for row in table.rows)]
    widths = [max(map(len, column)) for column in zip(*cells)]
    texts = [not any(isinstance(row[column], int | float) for row in table.rows) for column in range(len(widths))]
    lines = []
    for row in cells:
        words = [
            word.ljust(width) if is_text else word.rjust(width) for word, width, is_text in zip(row, widths, texts)
        ]
        lines.append("  ".join(words).rstrip() + "\n")
    return f"== {table.title}\n{table.remark}\n{''.join(lines)}"
