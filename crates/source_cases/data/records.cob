       IDENTIFICATION DIVISION.
       PROGRAM-ID. P.
       DATA DIVISION.
       COMMUNICATION SECTION.
       CD  C OUTPUT.
       01  R.
           02 A PIC X(10).
           02 B PIC X(13).
       01  S PIC X(23).
       CD  D INPUT.
       01  T PIC X(87).
       PROCEDURE DIVISION.
       MAIN.
