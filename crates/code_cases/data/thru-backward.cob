       IDENTIFICATION DIVISION.
       PROGRAM-ID. CASES.
       DATA DIVISION.
       PROCEDURE DIVISION.
       A.
           EXIT.
       B.
           EXIT.
       C.
           PERFORM B THRU A.
