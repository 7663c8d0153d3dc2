       IDENTIFICATION DIVISION.
       PROGRAM-ID. CASES.
       DATA DIVISION.
       PROCEDURE DIVISION.
       A1.
           PERFORM B1.
           STOP RUN.
       B1.
           GO TO B1.
