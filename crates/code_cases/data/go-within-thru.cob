       IDENTIFICATION DIVISION.
       PROGRAM-ID. CASES.
       DATA DIVISION.
       PROCEDURE DIVISION.
       A.
           PERFORM B THRU D.
           STOP RUN.
       B.
           GO TO D.
       C.
           GO TO B.
       D.
           EXIT.
