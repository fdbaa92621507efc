#!/usr/bin/env python3
"""Times the statements of examples/ that the rules change, before and after, on PostgreSQL and on SQLite with tables of 100,000 rows.

  bench/engines/speed.py [PROGRAM] [--rules FILE] [--rows N] [--runs R] [--seed S] [--no-postgres]

Before is what is printed without rules, after what is printed by the rules of FILE (the 438 of examples/rules). Each table has N rows that satisfy
its schema, and its keys as indexes. The time is of the processor, the least of R runs, before and after in turn: on PostgreSQL until the server has
planned and answered, no rows sent, on one core; on SQLite until all rows are read. It prints a table in Markdown, and says where the two answers
differ. It needs `apt-get install postgresql sqlite3`.
"""
import argparse
import pathlib
import random
import statistics
import time

from engines import NO_RULES, RULES, TOP, Postgres, constants, for_sqlite, is_text, keys_of, opened, printed, quoted, references, statements


# ---- tables of many rows

def values(row, names):
    return tuple(row[name] for name in names)


class Filler:
    """Rows that satisfy a schema, table by table; a reference goes to a row that is there."""

    def __init__(self, db, texts, rows, rng):
        numbers, words = constants(texts)
        self.db, self.rows, self.rng = db, rows, rng
        self.numbers = [0, 1, 2, 5, 9] + numbers
        self.words = ['north', 'south', 'east', 'west'] + words

    def fill(self, tables):
        self.db.execute('PRAGMA foreign_keys = OFF')
        left = list(tables)
        while left:
            ready = next(table for table in left if all(target == table or target not in left for _, target, _ in references(self.db, table)))
            self.fill_table(ready)
            left.remove(ready)
        self.db.execute('ANALYZE')
        assert not self.db.execute('PRAGMA foreign_key_check').fetchall()

    def fill_table(self, table):
        columns = self.db.execute(f'PRAGMA table_info({quoted(table)})').fetchall()
        keys = keys_of(self.db, table)
        alone = {key[0] for key in keys if len(key) == 1}
        wide = {name for key in keys for name in key}
        targets = [(mine, self.targets(table, target, others)) for mine, target, others in references(self.db, table)]
        targets = sorted((it for it in targets if not alone.intersection(it[0])), key=lambda it: len(it[0]))
        seen = [set() for _ in keys]
        for number in range(1, self.rows + 1):
            row = self.row(columns, alone, wide, targets, number)
            while any(values(row, key) in old for key, old in zip(keys, seen)):
                row = self.row(columns, alone, wide, targets, number)
            for key, old in zip(keys, seen):
                old.add(values(row, key))
            self.db.execute(f'INSERT INTO {quoted(table)} VALUES ({", ".join("?" * len(row))})', list(row.values()))

    def row(self, columns, alone, wide, targets, number):
        """A row with its number in each column that is a key alone, which refers to such numbers, and a target for each other reference."""
        row = {}
        for _, name, kind, required, _, key in columns:
            if name in alone:
                row[name] = f'{name} {number}' if is_text(kind) else number
            else:
                row[name] = self.value(kind, required or key, name in wide)
        for mine, found in targets:
            if None not in values(row, mine):
                row.update(zip(mine, self.rng.choice(found) if found else [None] * len(mine)))
        return row

    def targets(self, table, target, others):
        """The rows that a reference may go to: of a table's own, those that it will have."""
        if target == table:
            return [(number,) for number in range(1, self.rows + 1)]
        return self.db.execute(f'SELECT {", ".join(map(quoted, others))} FROM {quoted(target)}').fetchall()

    def value(self, kind, required, wide):
        """One of a few values, or of many for a number that is part of a key."""
        if not required and self.rng.random() < 0.2:
            return None
        if wide and not is_text(kind):
            return self.rng.randint(1, self.rows)
        return self.rng.choice(self.words if is_text(kind) else self.numbers)


# ---- times

def once(db, text):
    started = time.process_time()
    for _ in db.execute(text):
        pass
    return 1000 * (time.process_time() - started)


def sqlite_milliseconds(db, texts, runs):
    texts = [for_sqlite(text) for text in texts]
    times = [[once(db, text) for text in texts] for _ in range(runs)]
    return [min(column) for column in zip(*times)]


def same_rows(db, before, after):
    return sorted(map(repr, db.execute(for_sqlite(before)))) == sorted(map(repr, db.execute(for_sqlite(after))))


def changed(program, rules, schema, files):
    """The statements of these files that the rules change: name, before, after."""
    for file in files:
        texts = statements(file.read_text())
        lines = zip(printed(program, NO_RULES, schema, texts), printed(program, rules, schema, texts))
        for number, (before, after) in enumerate(lines, 1):
            if before != after:
                yield f'{file.stem if file.stem != "queries" else file.parent.name} {number}', before, after


def timed(schema, files, found, postgres, words):
    """For each statement that was found its name and, on each engine, the times before and after."""
    db, tables = opened(schema.read_text())
    texts = [text for file in files for text in statements(file.read_text())]
    Filler(db, texts, words.rows, random.Random(words.seed)).fill(tables)
    if postgres:
        postgres.load(db, tables, keys=True)
    for name, before, after in found:
        times = [sqlite_milliseconds(db, (before, after), words.runs)]
        if postgres:
            times.append(postgres.milliseconds((before, after), words.runs))
        if not same_rows(db, before, after):
            print(f'{name}: the answers differ')
        yield name, times
    db.close()


def all_timed(postgres, words):
    for schema in sorted(TOP.glob('examples/**/schema.sql')):
        files = [file for file in sorted(schema.parent.glob('*.sql')) if file != schema]
        found = list(changed(words.program.resolve(), words.rules, schema.read_text(), files))
        if found:
            yield from timed(schema, files, found, postgres, words)


def summary(engine, factors):
    return (f'{engine}: {len(factors)} statements, {statistics.geometric_mean(factors):.1f} times as fast in the geometric mean, {max(factors):.0f} at most, '
            f'{sum(factor > 1.1 for factor in factors)} faster by a tenth or more, {sum(factor < 0.9 for factor in factors)} slower')


def read_words():
    words = argparse.ArgumentParser()
    words.add_argument('program', nargs='?', default=TOP / 'crates/wetune/out/wetune', type=pathlib.Path)
    words.add_argument('--rules', default=RULES, type=pathlib.Path)
    words.add_argument('--rows', type=int, default=100_000)
    words.add_argument('--runs', type=int, default=7)
    words.add_argument('--seed', type=int, default=1)
    words.add_argument('--no-postgres', action='store_true')
    return words.parse_args()


def main():
    words = read_words()
    postgres = None if words.no_postgres else Postgres()
    engines = ['SQLite'] + (['PostgreSQL ' + postgres.version()] if postgres else [])
    print(f'| statement | {" | ".join(f"{engine}: before, ms | after | times" for engine in engines)} |')
    print('|---' * (1 + 3 * len(engines)) + '|')
    factors = [[] for _ in engines]
    try:
        for name, times in all_timed(postgres, words):
            cells = [f'{before:.1f} | {after:.1f} | {before / after:.1f}' for before, after in times]
            print(f'| {name} | {" | ".join(cells)} |', flush=True)
            for kept, (before, after) in zip(factors, times):
                kept.append(before / after)
    finally:
        if postgres:
            postgres.stop()
    for engine, kept in zip(engines, factors):
        print(f'\n{summary(engine, kept)}')


main()
