-- A table of stock, filled in one transaction and read by key.
CREATE TABLE stock (item INTEGER PRIMARY KEY, name CHAR(16), pieces INTEGER)
BEGIN WORK
INSERT INTO stock VALUES (1, 'bolt', 400)
INSERT INTO stock VALUES (2, 'nut', 380)
INSERT INTO stock VALUES (3, 'it''s a washer', 12)
INSERT INTO stock VALUES (3, 'washer', 12)
COMMIT WORK

-- Each statement outside BEGIN WORK is a transaction of its own.
INSERT INTO stock VALUES (2, 'nut again', 1)
SELECT * FROM stock WHERE item = 2
SELECT * FROM stock WHERE item = 4
SELECT * FROM shelf WHERE item = 1
