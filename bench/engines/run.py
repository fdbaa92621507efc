#!/usr/bin/env python3
"""Runs statements and what is printed for them on PostgreSQL and on SQLite, and compares the answers as bags.

  bench/engines/run.py [PROGRAM] [--rules FILE] [--generated N] [--databases D] [--seed S] [--no-postgres]

PROGRAM is the built `wetune`. Each statement of examples/ and N generated ones are printed twice, without rules and rewritten by the rules of
FILE (the 438 of examples/rules); those that are refused are counted and left. For each schema D databases are made that satisfy it, with NULLs
and equal rows, and on each of them both engines answer the statement and its two texts. It needs `apt-get install postgresql sqlite3`.
"""
import argparse
import collections
import pathlib
import random
import sqlite3
import sys

from engines import NO_RULES, RULES, TOP, Postgres, constants, is_text, opened, printed, quoted, references, sqlite_answer, statements

SCHEMA = '''
CREATE TABLE cust (id INTEGER PRIMARY KEY, name TEXT, rank INTEGER);
CREATE TABLE o (id INTEGER PRIMARY KEY, c INTEGER REFERENCES cust (id), d INTEGER NOT NULL REFERENCES cust (id), k INTEGER UNIQUE);
CREATE TABLE item (o INTEGER REFERENCES o (id), n INTEGER, label TEXT, "Order" INTEGER);
CREATE TABLE part (o INTEGER NOT NULL REFERENCES o (id), n INTEGER NOT NULL, label TEXT NOT NULL UNIQUE, PRIMARY KEY (o, n));
'''


# ---- databases

def database(schema, texts, rng):
    """An SQLite database that satisfies the schema, made by trying rows under its own constraints."""
    db, tables = opened(schema)
    numbers, words = constants(texts)
    pool = Pool(rng, numbers, words)
    for _ in range(3):
        for table in tables:
            columns = db.execute(f'PRAGMA table_info({quoted(table)})').fetchall()
            for _ in range(rng.choice((0, 3, 8))):
                row = {name: pool.value(kind, required or key) for (_, name, kind, required, _, key) in columns}
                follow(db, table, row, rng)
                try:
                    db.execute(f'INSERT INTO {quoted(table)} VALUES ({", ".join("?" * len(row))})', list(row.values()))
                except sqlite3.IntegrityError:
                    pass
    return db, tables


class Pool:
    """Values of rows: a few of each kind, and those that the statements name."""

    def __init__(self, rng, numbers, words):
        self.rng = rng
        self.numbers = [0, 1, 2, 3, 5, 7] + rng.sample(numbers, min(4, len(numbers)))
        self.words = ['', 'a', 'b', "it's", 'x y'] + rng.sample(words, min(6, len(words)))

    def value(self, kind, required):
        if not required and self.rng.random() < 0.25:
            return None
        return self.rng.choice(self.words if is_text(kind) else self.numbers)


def follow(db, table, row, rng):
    """Gives most references of a row a target that is there."""
    for columns, target, others in references(db, table):
        found = db.execute(f'SELECT {", ".join(map(quoted, others))} FROM {quoted(target)}').fetchall()
        if found and rng.random() < 0.9 and None not in [row[column] for column in columns]:
            row.update(zip(columns, rng.choice(found)))


# ---- statements

class Maker:
    """Statements over SCHEMA, most of which the program accepts, and in many of which some rule has a match."""
    TABLES = {
        'cust': [('id', 'n'), ('name', 't'), ('rank', 'n')],
        'o': [('id', 'n'), ('c', 'n'), ('d', 'n'), ('k', 'n')],
        'item': [('o', 'n'), ('n', 'n'), ('label', 't'), ('"Order"', 'n')],
        'part': [('o', 'n'), ('n', 'n'), ('label', 't')],
    }
    LINKED = {('c', 'id'), ('d', 'id'), ('o', 'id'), ('id', 'id')}

    def __init__(self, rng):
        self.rng = rng

    def statement(self):
        return self.query(2)[0]

    def query(self, depth, width=None):
        """A query and the names and kinds of its columns."""
        self.count = getattr(self, 'count', 0)
        source, columns = self.source(depth)
        where = self.conditions(columns, depth)
        if width is None and self.rng.random() < 0.2:
            chosen, items = columns, '*'
        else:
            asked = columns if self.rng.random() < 0.5 else [c for c in columns if c[0] == columns[0][0]]
            chosen = [self.rng.choice(asked) for _ in range(width or self.rng.randint(1, 3))]
            items = ', '.join(f'{alias}.{name}' + (f' AS out{i}' if width is None and self.rng.random() < 0.3 else '') for i, (alias, name, _) in enumerate(chosen))
        text = 'SELECT ' + self.rng.choice(('', '', 'DISTINCT ')) + items + ' FROM ' + source + where
        return text, chosen

    def primary(self, depth):
        self.count += 1
        alias = f'x{self.count}'
        if depth and self.rng.random() < 0.25:
            text, chosen = self.query(depth - 1, self.rng.randint(1, 3))
            names = [f'y{i}' for i in range(len(chosen))]
            return f'({text}) AS {alias} ({", ".join(names)})', [(alias, n, kind) for n, (_, _, kind) in zip(names, chosen)]
        table = self.rng.choice(list(self.TABLES))
        return f'{table} {alias}', [(alias, n, kind) for n, kind in self.TABLES[table]]

    def source(self, depth):
        text, columns = self.primary(depth)
        for _ in range(self.rng.choice((0, 0, 1, 1, 2))):
            other, more = self.primary(depth)
            pair = self.pair(columns, more)
            if pair is None:
                continue
            join = self.rng.choice(('JOIN', 'INNER JOIN', 'LEFT JOIN', 'LEFT OUTER JOIN', 'RIGHT JOIN', ','))
            if join == ',':
                self.linked = getattr(self, 'linked', []) + [pair]
                text = f'{text}, {other}'
                columns = columns + more
                self.commas = True
                continue
            if getattr(self, 'commas', False):
                continue
            padded = columns if join == 'RIGHT JOIN' else more
            extra = ''.join(' AND ' + self.simple(padded) for _ in range(self.rng.choice((0, 0, 1))))
            text = f'{text} {join} {other} ON {pair}{extra}'
            columns = columns + more
        self.commas = False
        return text, columns

    def pair(self, left, right):
        pairs = [(a, b) for a in left for b in right if a[2] == b[2]]
        if not pairs:
            return None
        linked = [(a, b) for a, b in pairs if (a[1], b[1]) in self.LINKED or (b[1], a[1]) in self.LINKED]
        a, b = self.rng.choice(linked if linked and self.rng.random() < 0.6 else pairs)
        return self.rng.choice((f'{a[0]}.{a[1]} = {b[0]}.{b[1]}', f'{b[0]}.{b[1]} = {a[0]}.{a[1]}'))

    def conditions(self, columns, depth):
        linked, self.linked = getattr(self, 'linked', []), []
        parts = list(linked)
        linked = [c for c in columns if c[1] in ('c', 'd')]
        if linked and self.rng.random() < 0.15:
            alias, name, _ = self.rng.choice(linked)
            parts.append(f'{alias}.{name} IN (SELECT {self.rng.choice(("", "DISTINCT "))}cust.id FROM cust)')
        for _ in range(self.rng.choice((0, 1, 1, 2, 3))):
            if depth and self.rng.random() < 0.2:
                text, chosen = self.query(depth - 1, 1)
                fit = [c for c in columns if c[2] == chosen[0][2]]
                if fit:
                    column = self.rng.choice(fit)
                    parts.append(f'{column[0]}.{column[1]} IN ({text})')
            else:
                parts.append(self.condition(columns, 2))
        return ' WHERE ' + ' AND '.join(parts) if parts else ''

    def condition(self, columns, depth):
        if depth == 0 or self.rng.random() < 0.5:
            return self.simple(columns)
        form = self.rng.choice(('({} OR {})', '({} AND {})', 'NOT ({} OR {})', '(NOT {} OR {})'))
        return form.format(self.condition(columns, depth - 1), self.condition(columns, depth - 1))

    def simple(self, columns):
        alias, name, kind = self.rng.choice(columns)
        column = f'{alias}.{name}'
        constant = lambda: self.rng.choice(("'a'", "'b'", "''", "'it''s'")) if kind == 't' else str(self.rng.choice((-1, 0, 1, 2, 3, 5)))
        form = self.rng.choice(('cmp', 'cmp', 'null', 'list', 'between', 'two'))
        if form == 'cmp':
            return f'{column} {self.rng.choice(("=", "<>", "!=", "<", "<=", ">", ">="))} {constant()}'
        if form == 'null':
            return f'{column} IS {self.rng.choice(("", "NOT "))}NULL'
        if form == 'list':
            return f'{column} {self.rng.choice(("", "NOT "))}IN ({", ".join(constant() for _ in range(self.rng.randint(1, 3)))})'
        if form == 'between':
            return f'{column} {self.rng.choice(("", "NOT "))}BETWEEN {constant()} AND {constant()}'
        other = self.rng.choice([c for c in columns if c[2] == kind])
        return f'{column} {self.rng.choice(("<", "<=", "<>"))} {other[0]}.{other[1]}'


# ---- the run

def cases(generated, rng):
    """Schemas and their statements."""
    for schema in sorted(TOP.glob('examples/**/schema.sql')):
        for queries in sorted(schema.parent.glob('*.sql')):
            if queries != schema:
                yield str(queries.relative_to(TOP)), schema.read_text(), statements(queries.read_text())
    yield 'generated', SCHEMA, [Maker(rng).statement() for _ in range(generated)]


def is_error(answer):
    return isinstance(answer, str)


def verdict(answers):
    return 'error' if any(map(is_error, answers)) else 'same' if all(answer == answers[0] for answer in answers) else 'DIFFERENT'


def judge(name, schema, asked, databases, rng, postgres, told):
    """Asks each statement and its texts on so many databases, and counts the verdicts."""
    texts = [text for three in asked for text in three]
    for _ in range(databases):
        db, tables = database(schema, [three[0] for three in asked], rng)
        engines = {'SQLite': [sqlite_answer(db, text) for text in texts]}
        if postgres:
            postgres.load(db, tables)
            engines['PostgreSQL'] = postgres.answers(texts)
        db.close()
        for i, three in enumerate(asked):
            answers = {engine: found[3 * i:3 * i + 3] for engine, found in engines.items()}
            answers['the engines, on one statement'] = [found[0] for found in answers.values()]
            for engine, found in answers.items():
                said = verdict(found)
                told[engine, said] += 1
                told[engine, 'with rows'] += not is_error(found[0]) and len(found[0]) > 0
                if said != 'same':
                    print(f'{engine}, {name}: {said}', *three, *found, sep='\n  ')


def main():
    words = argparse.ArgumentParser()
    words.add_argument('program', nargs='?', default=TOP / 'crates/wetune/out/wetune', type=pathlib.Path)
    words.add_argument('--rules', default=RULES, type=pathlib.Path)
    words.add_argument('--generated', type=int, default=3000)
    words.add_argument('--databases', type=int, default=4)
    words.add_argument('--seed', type=int, default=1)
    words.add_argument('--no-postgres', action='store_true')
    words = words.parse_args()
    program, rng, told = words.program.resolve(), random.Random(words.seed), collections.Counter()
    postgres = None if words.no_postgres else Postgres()
    try:
        for name, schema, texts in cases(words.generated, rng):
            lines = zip(texts, printed(program, NO_RULES, schema, texts), printed(program, words.rules, schema, texts))
            asked = [three for three in lines if three[1] is not None]
            if not asked:
                continue
            print(f'{name}: {len(texts)} statements, {len(asked)} printed, {sum(three[1] != three[2] for three in asked)} rewritten', flush=True)
            judge(name, schema, asked, words.databases, rng, postgres, told)
    finally:
        if postgres:
            postgres.stop()
    for (engine, answer), count in sorted(told.items()):
        print(f'{engine}: {answer} {count}')
    sys.exit(any(answer in ('error', 'DIFFERENT') for _, answer in told))


main()
