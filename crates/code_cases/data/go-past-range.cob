       IDENTIFICATION DIVISION.
       PROGRAM-ID. CASES.
       DATA DIVISION.
       PROCEDURE DIVISION.
       A.
           PERFORM B THRU C.
           STOP RUN.
       B.
           GO TO D.
       C.
           EXIT.
       D.
           EXIT.
