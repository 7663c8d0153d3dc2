       IDENTIFICATION DIVISION.
       PROGRAM-ID. LEAVER.
       DATA DIVISION.
       PROCEDURE DIVISION.
       A1.
           PERFORM B1.
           STOP RUN.
       B1.
           GO TO A1.
