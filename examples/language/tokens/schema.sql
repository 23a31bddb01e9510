create schema authorization u   -- letter case doesn't matter, outside text literals
CREATE TABLE T (A_1 NUMERIC(4,2), TEXT VARCHAR(12))
