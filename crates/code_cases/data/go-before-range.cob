       IDENTIFICATION DIVISION.
       PROGRAM-ID. CASES.
       DATA DIVISION.
       PROCEDURE DIVISION.
       A.
           PERFORM B THRU C.
           STOP RUN.
       B.
           EXIT.
       C.
           GO TO A.
