       IDENTIFICATION DIVISION.
       PROGRAM-ID. CASES.
       DATA DIVISION.
       PROCEDURE DIVISION.
       A.
           STOP RUN.
           PERFORM B.
       B.
           GO TO A.
