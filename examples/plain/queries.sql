SELECT t.a, t.b FROM t;
