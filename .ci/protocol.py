#!/usr/bin/env python3
"""The worked frames of docs/PROTOCOL.md: each is a frame, by a check that shares no code with ice2.

`protocol.py FOLDER` writes the frames that read each parameter to FOLDER/parameters.line, and the answers that the page
gives to FOLDER/parameters.reply.
"""
import re
import sys
from pathlib import Path

TOP = Path(__file__).resolve().parent.parent
sys.path.insert(0, str(TOP / "examples"))
from frames import frame  # noqa: E402

COMMANDS, RESPONSES, PARAMETERS = 22, 14, 13


def is_frame(data):
    return data == frame(int.from_bytes(data[1:3], "little"), data[8:-2])


def rows(page, heading):
    section = page.split(f"\n## {heading}\n")[1].split("\n## ")[0]
    found = [
        [bytes.fromhex(text) for text in re.findall(r"`((?:[0-9A-F]{2} ){9,}[0-9A-F]{2})`", line)]
        for line in section.splitlines()
        if line.startswith("| ")
    ]
    return [row for row in found if row]


page = (TOP / "docs" / "PROTOCOL.md").read_text()
tables = [
    (rows(page, "Commands"), COMMANDS, 1),
    (rows(page, "Responses and the event"), RESPONSES, 1),
    (rows(page, "Parameters"), PARAMETERS, 2),
]
for table, count, columns in tables:
    if len(table) != count or any(len(row) != columns for row in table):
        sys.exit("a table has not its rows")
    for row in table:
        for told in row:
            if not is_frame(told):
                sys.exit(f"no frame: {told.hex(' ')}")
folder = Path(sys.argv[1])
parameters = tables[2][0]
(folder / "parameters.line").write_bytes(b"".join(row[0] for row in parameters))
(folder / "parameters.reply").write_bytes(b"".join(row[1] for row in parameters))
