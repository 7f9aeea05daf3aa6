"""How a grid is, as a tenant can see it: which nodes answer, and what the tenant has used of its room."""

from dataclasses import asdict
from typing import Any

from .grid import Nodes, Shape, listed
from .usage import ColumnUsage, Usage


def nodes_value(nodes: Nodes) -> dict[str, Any]:
    """The nodes, for JSON. What depends on how they are arranged is null where that is not known, and so is the form of lines that a node speaks."""
    told, shape, silent = nodes.told, nodes.shape, nodes.silent_places
    return {
        "nodes": [
            {
                "node": told.node_at(place),
                "row": place // shape.columns if shape else None,
                "column": place % shape.columns if shape else None,
                "answers": place not in silent,
                "form": nodes.form_of(told.node_at(place)),
            }
            for place in range(told.nodes)
        ],
        "rows": shape.rows if shape else None,
        "columns": shape.columns if shape else None,
        "is_arrangement_said": nodes.said is not None,
        "rows_up": shape.rows_up(silent) if shape else None,
        "columns_up": shape.columns_up(silent) if shape else None,
        "goes_on": nodes.goes_on(),
        "sessions": [
            {"session": session, "home": told.home_of(session), "answers": told.home_of(session) not in nodes.silent}
            for session in range(1, told.sessions + 1)
        ],
    }


def usage_value(usage: Usage | None, left_out: str | None) -> dict[str, Any]:
    """The tenant's part, for JSON: the same keys, whether it is known or left out."""
    if usage is None:
        return {"names": None, "pages": None, "in_slots": None, "bytes": None, "left_out": left_out}
    page = usage.fullest
    fullest = {"session": page.session, "page": page.page, "bytes": page.bytes, "most": page.most, "percent": page.percent}
    return {
        "names": usage.names,
        "pages": {"count": usage.pages, "fullest": fullest},
        "in_slots": {"names": usage.names_in_slots, "bytes": usage.bytes_in_slots},
        "bytes": {"used": usage.bytes_used, "free": usage.bytes_free if usage.columns else None},
        "left_out": None,
    } | ({"chunks": [asdict(column) for column in usage.columns]} if usage.columns else {})


def picture(nodes: Nodes, shape: Shape) -> list[str]:
    """The nodes in their rows and columns, those that are silent in brackets."""
    told = nodes.told
    words = [f"({node})" if node in nodes.silent else f" {node} " for node in map(told.node_at, range(told.nodes))]
    width = max(map(len, words))
    return [(f"  row {row}  " + " ".join(words[place].rjust(width) for place in shape.row(row))).rstrip() for row in range(shape.rows)]


def counted(what: str, numbers: list[int]) -> str:
    """`no row`, `row 1` or `rows 0 and 1`."""
    return f"{what}{'s' * (len(numbers) > 1)} {listed(numbers)}" if numbers else f"no {what}"


def nodes_lines(nodes: Nodes) -> list[str]:
    told, shape, silent = nodes.told, nodes.shape, nodes.silent_places
    if shape:
        taken = "" if nodes.said else ", taken for a square (--grid)"
        lines = [f"grid: {shape.rows} by {shape.columns}{taken}", *picture(nodes, shape)]
    else:
        lines = [f"grid: {told.nodes} nodes; how they are arranged is not said (--grid)"]
    lines += [nodes.summary(), *nodes.of_before()]
    if shape:
        lines.append(f"wholly up: {counted('row', shape.rows_up(silent))}, {counted('column', shape.columns_up(silent))}")
    homes = ((session, told.home_of(session)) for session in range(1, told.sessions + 1))
    return lines + [f"session {session}: home {home}{', silent' * (home in nodes.silent)}" for session, home in homes]


def usage_lines(usage: Usage | None, left_out: str | None) -> list[str]:
    if usage is None:
        return [f"names, pages, bytes: left out: {left_out}"]
    page = usage.fullest
    return [
        f"names: {usage.names}",
        f"pages: {usage.pages}, the fullest at {page.percent} percent (page {page.page} of session {page.session}, {page.bytes} of {page.most} bytes)",
        f"bytes: {usage.bytes_used} used",
        *[f"in slots, from before chunks: {usage.names_in_slots} names, {usage.bytes_in_slots} bytes (docs/SLOTS.md)"] * bool(usage.names_in_slots),
        *map(column_line, usage.columns),
    ]


def column_line(column: ColumnUsage) -> str:
    line = f"chunks in column {column.column}: {column.used} bytes used of {column.allowed}"
    line += f"; {counted('node', list(column.silent))} did not answer" if column.silent else ""
    return line + (f"; chunks are lacking at {counted('node', list(column.lacking))}" if column.lacking else "")
