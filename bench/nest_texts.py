#!/usr/bin/env python3
"""Modules with 100 constructs open in each other, the most that are legal, one for each construct.

    bench/nest_texts.py FOLDER
"""
import os
import sys

CALLS = "PROCEDURE F(a: INTEGER): INTEGER; RETURN a END F; PROCEDURE G(a, b, c: INTEGER): INTEGER; RETURN a + b + c END G; "

# name: what stands before the nest, what opens a part of it, what stands inside, what closes a part, what stands behind, and how many parts
NESTS = {
    "parentheses": ("VAR i: INTEGER; BEGIN i := ", "(", "1", ")", "", 100),
    "sums": ("VAR i: INTEGER; BEGIN i := ", "(1 + i * ", "1", ")", "", 100),
    "negations": ("VAR b: BOOLEAN; BEGIN b := ", "~", "b", "", "", 100),
    "conditions": ("VAR b: BOOLEAN; BEGIN b := ", "(b & ", "b", ")", "", 100),
    "indices": ("VAR a: ARRAY 1 OF INTEGER; BEGIN a[0] := ", "a[", "0", "]", "", 100),
    "sets": ("VAR i: INTEGER; BEGIN i := ", "ORD({", "1 .. 0", "} * {})", "", 50),
    "calls": ("VAR i: INTEGER; " + CALLS + "BEGIN i := ", "F(", "1", ")", "", 100),
    "calls_in_sums": ("VAR i: INTEGER; " + CALLS + "BEGIN i := ", "G(1 + i, 2 * ", "1", ", 3)", "", 100),
    "ifs": ("VAR b: BOOLEAN; BEGIN ", "IF b THEN ELSIF b THEN ", "", "END ", "", 100),
    "cases": ("VAR i: INTEGER; BEGIN ", "CASE i OF 0: ", "", "END ", "", 100),
    "whiles": ("VAR b: BOOLEAN; BEGIN ", "WHILE b DO ", "", "END ", "", 100),
    "repeats": ("BEGIN ", "REPEAT ", "", "UNTIL TRUE ", "", 100),
    "fors": ("VAR i: INTEGER; BEGIN ", "FOR i := 1 TO 0 DO ", "", "END ", "", 100),
    "arrays": ("VAR a: ", "ARRAY 1 OF ", "CHAR", "", ";", 100),
    "records": ("VAR r: ", "RECORD f: ", "CHAR", " END", ";", 100),
    "pointers": ("TYPE T = ", "POINTER TO RECORD f: ", "CHAR", " END", ";", 50),
    "procedures": ("", "PROCEDURE P; ", "", "END P; ", "", 100),
}


def main(folder):
    for name, (before, opens, inside, closes, behind, parts) in NESTS.items():
        with open(os.path.join(folder, f"{name}.Mod"), "w") as file:
            file.write(f"MODULE M; {before}{opens * parts}{inside}{closes * parts}{behind} END M.\n")


if __name__ == "__main__":
    main(*sys.argv[1:])
