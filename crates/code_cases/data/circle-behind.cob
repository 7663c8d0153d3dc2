       IDENTIFICATION DIVISION.
       PROGRAM-ID. CASES.
       DATA DIVISION.
       PROCEDURE DIVISION.
       A.
           PERFORM B.
           STOP RUN.
       B.
           PERFORM C.
       C.
           PERFORM B.
