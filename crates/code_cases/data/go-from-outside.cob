       IDENTIFICATION DIVISION.
       PROGRAM-ID. CASES.
       DATA DIVISION.
       PROCEDURE DIVISION.
       A.
           PERFORM C.
           GO TO C.
       B.
           GO TO A.
       C.
           EXIT.
