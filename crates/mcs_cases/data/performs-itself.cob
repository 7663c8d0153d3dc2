       IDENTIFICATION DIVISION.
       PROGRAM-ID. CIRCLE.
       DATA DIVISION.
       PROCEDURE DIVISION.
       A1.
           PERFORM B1.
           STOP RUN.
       B1.
           PERFORM C1 THRU C2.
       C1.
           EXIT.
       C2.
           PERFORM B1.
