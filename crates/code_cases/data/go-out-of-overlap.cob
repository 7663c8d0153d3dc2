       IDENTIFICATION DIVISION.
       PROGRAM-ID. CASES.
       DATA DIVISION.
       PROCEDURE DIVISION.
       A.
           PERFORM B THRU C.
           PERFORM C THRU D.
           STOP RUN.
       B.
           EXIT.
       C.
           GO TO B.
       D.
           EXIT.
