-- A module and its procedures that are together names in use in C.
MODULE SIZE LANGUAGE C AUTHORIZATION U
PROCEDURE T (SQLCODE, :SIZE_T INTEGER); COMMIT;
