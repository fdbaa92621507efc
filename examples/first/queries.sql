-- each order has a customer, so the IN holds; the join adds no column and no row, and the DISTINCT finds no two rows that are the same
SELECT DISTINCT orders.id FROM orders LEFT JOIN customers ON orders.customer = customers.id WHERE orders.total > 100 AND orders.customer IN (SELECT customers.id FROM customers);
-- the name is asked for, so the join stays; each order has a customer, so it may be an inner one
SELECT orders.id, customers.name FROM orders LEFT JOIN customers ON orders.customer = customers.id;
