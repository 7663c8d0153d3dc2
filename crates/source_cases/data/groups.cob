       IDENTIFICATION DIVISION.
       PROGRAM-ID. P.
       DATA DIVISION.
       WORKING-STORAGE SECTION.
       01  A.
           02 B.
           03 C PIC X(2).
           03 D PIC 9(3).
           02 E PIC X.
       77  F PIC X.
       PROCEDURE DIVISION.
       MAIN.
