"""Runs statements over a file of SQLite, and prints their rows as psql does: lite.py FILE STATEMENTS. A statement but the last ends a line."""

import sqlite3
import sys


def statements(text):
    begun = ""
    for line in text.splitlines():
        begun += line + "\n"
        if sqlite3.complete_statement(begun):
            yield begun
            begun = ""
    yield begun


with sqlite3.connect(sys.argv[1], timeout=20) as database:
    for statement in statements(sys.argv[2]):
        for row in database.execute(statement):
            print(*("" if value is None else value for value in row), sep="|")
