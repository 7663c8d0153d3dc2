       IDENTIFICATION DIVISION.
       PROGRAM-ID. CASES.
       DATA DIVISION.
       PROCEDURE DIVISION.
       A.
           PERFORM B THRU E.
           PERFORM C THRU D.
           STOP RUN.
       B.
           GO TO D.
       C.
           GO TO D.
       D.
           EXIT.
       E.
           EXIT.
