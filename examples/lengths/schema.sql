-- A rule whose destination would join a list of one column with a list of two has no match.
CREATE TABLE m (a INTEGER, b INTEGER, n INTEGER);
CREATE TABLE p (x INTEGER, y INTEGER, UNIQUE (x, y));
CREATE TABLE s (z INTEGER PRIMARY KEY);
