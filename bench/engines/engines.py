"""What the two scripts here share: texts, what the program prints for statements, and the two engines."""
import collections
import os
import pathlib
import re
import shutil
import sqlite3
import subprocess
import sys
import tempfile

TOP = pathlib.Path(__file__).resolve().parent.parent.parent
RULES = TOP / 'examples/rules/two-to-one.txt'
NO_RULES = TOP / 'examples/plain/rules.txt'


# ---- texts

def pieces(text):
    """The text cut into quoted parts, comments and single characters."""
    return re.findall(r"'(?:[^']|'')*'|\"(?:[^\"]|\"\")*\"|--[^\n]*|/\*.*?\*/|.", text, re.S)


def statements(text):
    """The statements of a file, without their comments and semicolons."""
    found, part = [], []
    for piece in pieces(text) + [';']:
        if piece == ';':
            if ''.join(part).strip():
                found.append(''.join(part).strip())
            part = []
        elif not piece.startswith(('--', '/*')):
            part.append(piece)
    return found


def for_sqlite(text):
    """`(query) AS name (columns)` as SQLite takes it, which has no column list there: through a WITH."""
    parts = pieces(text)
    out, opened = [], []
    i = 0
    while i < len(parts):
        if parts[i] == '(':
            opened.append(len(out))
            out.append('(')
        elif parts[i] == ')' and opened:
            begin = opened.pop()
            out.append(')')
            rest = ''.join(parts[i + 1:i + 4000])
            named = re.match(r'\s*(?:AS\s+)?("(?:[^"]|"")*"|[A-Za-z_]\w*)\s*(\((?:\s*(?:"(?:[^"]|"")*"|\w+)\s*,?)+\))', rest, re.I)
            inside = ''.join(out[begin + 1:-1])
            if named and re.match(r'\s*SELECT\b', inside, re.I) and named.group(1).upper() not in ('IN', 'ON', 'AND', 'OR', 'WHERE'):
                name, columns = named.groups()
                out[begin:] = [f'(WITH {name} {columns} AS ({inside}) SELECT * FROM {name}) AS {name}']
                i += len(pieces(named.group(0)))
        else:
            out.append(parts[i])
        i += 1
    return ''.join(out)


def constants(texts):
    """The numbers and the texts that statements compare with, for rows that meet their conditions."""
    joined = '\n'.join(texts)
    numbers = {int(n) for n in re.findall(r'(?<![\w."])-?\d+(?![\w."])', re.sub(r"'[^']*'", '', joined))}
    return sorted(numbers), sorted({t.replace("''", "'") for t in re.findall(r"'((?:[^']|'')*)'", joined)})


def quoted(name):
    return '"' + name.replace('"', '""') + '"'


def is_text(kind):
    return re.match(r'text|varchar|char', kind, re.I)


# ---- the program

def printed(program, rules, schema, texts):
    """What the program prints for each statement, by these rules; None for one that is refused."""
    with tempfile.TemporaryDirectory() as folder:
        folder = pathlib.Path(folder)
        shutil.copy(rules, folder / 'rules')
        (folder / 'schema').write_text(schema)
        (folder / 'queries').write_text(''.join(f'{text}\n;\n' for text in texts))
        run = subprocess.run([program, 'rewrite', 'rules', 'schema', 'queries'], cwd=folder, capture_output=True)
    if run.returncode not in (0, 4):
        sys.exit(f'{program} ends with {run.returncode}: {run.stdout.decode()}')
    lines, piece = [], ''
    for line in run.stdout.decode().splitlines(True):
        piece += line
        if piece.endswith(';\n') or re.fullmatch(r'-- refused \w+ at \d+\n', piece):
            lines.append(None if piece.startswith('-- refused') else piece[:-2])
            piece = ''
    assert len(lines) == len(texts)
    return lines


# ---- engines

class Postgres:
    """A server of its own in a temporary folder, with the collation C, in which texts are compared by their bytes."""

    def __init__(self):
        found = sorted(pathlib.Path('/usr/lib/postgresql').glob('*/bin')) or [pathlib.Path(shutil.which('initdb')).parent]
        self.bin = found[-1]
        self.folder = pathlib.Path(tempfile.mkdtemp(prefix='engines-'))
        self.user = ['su', 'postgres', '-s', '/bin/sh', '-c'] if os.geteuid() == 0 else ['sh', '-c']
        if os.geteuid() == 0:
            shutil.chown(self.folder, 'postgres')
        self.sh(f'{self.bin}/initdb -D {self.folder}/db --locale=C --encoding=UTF8 -A trust -U judge')
        self.sh(f'{self.bin}/pg_ctl -D {self.folder}/db -w -l {self.folder}/log -o "-k {self.folder} -c listen_addresses= -c jit=off -c max_parallel_workers_per_gather=0" start')

    def sh(self, command):
        subprocess.run(self.user + [command], check=True, capture_output=True)

    def run(self, text):
        return subprocess.run(['psql', '-X', '-q', '-h', str(self.folder), '-U', 'judge', 'postgres'], input=text.encode(), capture_output=True)

    def load(self, db, tables, keys=False):
        """Makes the tables of an SQLite database here, with their keys or without, and copies their rows."""
        parts = ['\\set ON_ERROR_STOP 1\nSET client_min_messages = error; DROP SCHEMA IF EXISTS public CASCADE; CREATE SCHEMA public;\n']
        for table in tables:
            columns = [f'{quoted(name)} {"TEXT" if is_text(kind) else "BIGINT"}{" NOT NULL" if required or key else ""}'
                       for (_, name, kind, required, _, key) in db.execute(f'PRAGMA table_info({quoted(table)})')]
            if keys:
                columns += [f'UNIQUE ({", ".join(map(quoted, key))})' for key in keys_of(db, table)]
            parts.append(f'CREATE TABLE {quoted(table)} ({", ".join(columns)});\nCOPY {quoted(table)} FROM STDIN;\n')
            parts += ['\t'.join(map(copied, row)) + '\n' for row in db.execute(f'SELECT * FROM {quoted(table)}')] + ['\\.\n']
        done = self.run(''.join(parts) + 'ANALYZE;\n')
        if done.returncode:
            sys.exit(done.stderr.decode())

    def answers(self, texts):
        """The bag of each text's rows, or its error."""
        asked = ''.join(f'COPY ({text}\n) TO STDOUT;\n\\echo -- {i}\n\\warn -- {i}\n' for i, text in enumerate(texts))
        done = self.run(asked)
        rows, faults = (re.split(r'^-- \d+\n', told.decode(), flags=re.M)[:len(texts)] for told in (done.stdout, done.stderr))
        return [fault or bag_of_copy(part) for part, fault in zip(rows, faults)]

    def milliseconds(self, texts, runs):
        """The least processor time of so many runs in which the server plans and answers each text, its rows not sent; the texts are run in turn."""
        asked = ''.join(f'EXPLAIN (ANALYZE, TIMING OFF) {text};\n' for text in texts)
        told = self.run('SET log_statement_stats = on; SET client_min_messages = log;\n' + asked * runs).stderr.decode()
        times = [1000 * (float(user) + float(system)) for user, system in re.findall(r'([\d.]+) s user, ([\d.]+) s system, [\d.]+ s elapsed', told)]
        times = times[-runs * len(texts):]
        return [min(times[i::len(texts)]) for i in range(len(texts))]

    def version(self):
        return self.run('\\t on\n\\a\nSHOW server_version;').stdout.decode().split()[0]

    def stop(self):
        self.sh(f'{self.bin}/pg_ctl -D {self.folder}/db -m immediate stop')
        shutil.rmtree(self.folder, ignore_errors=True)


def keys_of(db, table):
    """The columns of each key of an SQLite table."""
    found = [[name for (_, _, name) in db.execute(f'PRAGMA index_info({quoted(index)})')]
             for (_, index, unique, _, _) in db.execute(f'PRAGMA index_list({quoted(table)})') if unique]
    rowid = [name for (_, name, _, _, _, key) in db.execute(f'PRAGMA table_info({quoted(table)})') if key]
    return found + ([rowid] if rowid and rowid not in found else [])


def copied(v):
    """A value in the text of COPY."""
    return '\\N' if v is None else str(v).replace('\\', '\\\\').replace('\n', '\\n').replace('\t', '\\t')


def bag_of_copy(text):
    rows = (tuple(None if v == '\\N' else v for v in line.split('\t')) for line in text.split('\n')[:-1])
    return collections.Counter(rows)


def sqlite_answer(db, text):
    """The bag of a text's rows on SQLite, or its error."""
    try:
        return collections.Counter(tuple(None if v is None else copied(v) for v in row) for row in db.execute(for_sqlite(text)))
    except sqlite3.Error as fault:
        return str(fault)


def opened(schema):
    """An empty SQLite database of a schema, and its tables' names."""
    db = sqlite3.connect(':memory:')
    db.execute('PRAGMA foreign_keys = ON')
    for statement in statements(schema):
        db.execute(statement)
    return db, [name for (name,) in db.execute("SELECT name FROM sqlite_master WHERE type = 'table' ORDER BY rowid")]


def references(db, table):
    """The references of an SQLite table: their columns, the target, and its columns."""
    found = {}
    for (number, _, target, column, other, *_) in db.execute(f'PRAGMA foreign_key_list({quoted(table)})'):
        found.setdefault(number, (target, []))[1].append((column, other))
    for target, pairs in found.values():
        primary = [name for (_, name, _, _, _, key) in sorted(db.execute(f'PRAGMA table_info({quoted(target)})'), key=lambda it: it[5]) if key]
        yield [column for column, _ in pairs], target, [other or primary[i] for i, (_, other) in enumerate(pairs)]
