       IDENTIFICATION DIVISION.
       PROGRAM-ID. CASES.
       DATA DIVISION.
       PROCEDURE DIVISION.
       A.
           EXIT.
       B.
           PERFORM C THRU A.
       C.
           EXIT.
