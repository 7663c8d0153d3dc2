       IDENTIFICATION DIVISION.
       PROGRAM-ID. CASES.
       DATA DIVISION.
       PROCEDURE DIVISION.
       A.
           EXIT.
       B.
           PERFORM B THRU A.
       C.
           PERFORM C THRU A.
