-- Stock and orders: an order takes its goods within a transaction, or leaves all as it was.
CREATE TABLE stock (item INTEGER PRIMARY KEY, name CHAR(12), pieces INTEGER)
CREATE TABLE orders (number INTEGER PRIMARY KEY, item INTEGER, pieces INTEGER)
BEGIN WORK
INSERT INTO stock VALUES (1, 'bolt', 500)
INSERT INTO stock VALUES (2, 'nut', 380)
COMMIT WORK

-- order 1: the stock's row is put anew with what is left
BEGIN WORK
INSERT INTO orders VALUES (1, 2, 80)
DELETE FROM stock WHERE item = 2
INSERT INTO stock VALUES (2, 'nut', 300)
COMMIT WORK

-- order 2 is given up: its rows go, and the stock is as before
BEGIN WORK
INSERT INTO orders VALUES (2, 2, 1000)
DELETE FROM stock WHERE item = 2
ROLLBACK WORK

SELECT * FROM stock WHERE item = 2
SELECT * FROM orders WHERE number = 2
