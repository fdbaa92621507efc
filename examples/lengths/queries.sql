SELECT m.n FROM m LEFT JOIN p ON m.a = p.x AND m.b = p.y LEFT JOIN s ON m.n = s.z;
