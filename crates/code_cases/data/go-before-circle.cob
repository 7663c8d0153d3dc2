       IDENTIFICATION DIVISION.
       PROGRAM-ID. CASES.
       DATA DIVISION.
       PROCEDURE DIVISION.
       A.
           PERFORM B.
           STOP RUN.
       B.
           GO TO A.
       C.
           PERFORM C.
