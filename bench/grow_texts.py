#!/usr/bin/env python3
"""Modules that repeat one thing of the grammar until they have so many bytes.

    grow_texts.py KIND BYTES    writes the module of a kind
    grow_texts.py               writes the kinds

grow.sh measures what compiling them takes.
"""

import sys

INTEGER = "VAR i: INTEGER; BEGIN "
BOOLEAN = "VAR b: BOOLEAN; i: INTEGER; BEGIN "
CHAIN = "TYPE P = POINTER TO R; R = RECORD n: P; i: INTEGER END; VAR p: P; BEGIN p"
PARAMETERS = ", ".join(f"a{k}" for k in range(24))
KINDS_OF_PARAMETERS = "; ".join(f"VAR a{k}: SET" if k % 2 else f"a{k}: CHAR" for k in range(24))
ARGUMENTS = ", ".join(map(str, range(24)))

# before, the first part, each further part, behind; a part's number stands for @
LISTS = {
    "blanks": ("", " ", " ", ""),
    "comments": ("", "(* *)", "(* *)", ""),
    "digits": ("CONST n = ", "0", "0", "1;"),
    "one_string": ('CONST s = "', "x", "x", '";'),
    "letters": ("VAR ", "v", "v", ": INTEGER;"),
    "constants": ("CONST ", "c@ = @;\n", "c@ = @;\n", ""),
    "types": ("TYPE ", "T@ = ARRAY 2 OF CHAR;\n", "T@ = ARRAY @ OF T0;\n", ""),
    "variables": ("VAR ", "v@: CHAR;\n", "v@: CHAR;\n", ""),
    "names": ("VAR ", "v@", ", v@", ": CHAR;"),
    "imports": ("IMPORT ", "A@ := Out", ", A@ := Out", ";"),
    "fields": ("VAR r: RECORD ", "f@", ", f@", ": CHAR END;"),
    "field_lists": ("VAR r: RECORD ", "f@: CHAR", "; f@: CHAR", " END;"),
    "extensions": ("TYPE R = RECORD a, b, c: CHAR END;\n", "E@ = RECORD (R) END;\n", "E@ = RECORD (R) END;\n", ""),
    "extension_chain": ("TYPE ", "E0 = RECORD END;\n", "E@ = RECORD (E#) f@: CHAR END;\n", ""),
    "dimensions": ("VAR a: ARRAY ", "1", ", 1", " OF CHAR;"),
    "parameters": ("", "", f"PROCEDURE P@({PARAMETERS}: INTEGER); END P@;\n", ""),
    "parameter_lists": ("", "", f"PROCEDURE P@({KINDS_OF_PARAMETERS}); END P@;\n", ""),
    "formal_types": ("VAR ", "", "v@: PROCEDURE (a: ARRAY OF CHAR; VAR b: SET): CHAR;\n", ""),
    "procedures": ("", "", "PROCEDURE P@; END P@;\n", ""),
    "nested_procedures": (
        "",
        "",
        "".join(f"PROCEDURE P{k or '@'}; " for k in range(100)) + "".join(f"END P{k or '@'}; " for k in reversed(range(100))) + "\n",
        "",
    ),
    "bodies": (
        "",
        "",
        "PROCEDURE P@(a, b: INTEGER): INTEGER;\n  VAR c, d: INTEGER;\nBEGIN\n  (* the number of steps *)\n  c := a; d := 0;\n  WHILE c < b DO\n"
        "    c := c + a;\n    d := d + 1\n  END;\n  (* or their double *)\n  IF c = b THEN d := 2 * d END;\n  RETURN d\nEND P@;\n\n",
        "",
    ),
    "empty_statements": ("BEGIN ", ";", ";", ""),
    "assignments": (INTEGER, "i := 0", ";\ni := @", ""),
    "calls": ("PROCEDURE P; END P; BEGIN ", "P", ";P", ""),
    "arguments": (f"PROCEDURE P({PARAMETERS}: INTEGER); END P;\nBEGIN ", "", f"P({ARGUMENTS});\n", ""),
    "elsifs": (BOOLEAN + "IF b THEN\n", "", "ELSIF b THEN\n", "END"),
    "elsifs_that_assign": (BOOLEAN + "IF b THEN\n", "", "ELSIF b THEN i:=1\n", "END"),
    "while_elsifs": (BOOLEAN + "WHILE b DO\n", "", "ELSIF b DO\n", "END"),
    "labels": (INTEGER + "CASE i OF ", "0", ", @", ": END"),
    "ranges": (INTEGER + "CASE i OF ", "0 .. 0", ", @ .. @", ": END"),
    "cases": (INTEGER + "CASE i OF ", "0:", "| @:", " END"),
    "terms": (INTEGER + "i := ", "i", "+i", ""),
    "factors": (INTEGER + "i := ", "i", "*i", ""),
    "conjunctions": (BOOLEAN + "b := ", "b", "&b", ""),
    "disjunctions": (BOOLEAN + "b := ", "b", " OR b", ""),
    "relations": (BOOLEAN, "b := i=0", ";b := i=0", ""),
    "selectors": (CHAIN, "", ".n", ".i := 0"),
    "dereferences": (CHAIN, "", "^.n", ".i := 0"),
    "guards": (CHAIN, "", "(P)", ".i := 0"),
    "indices": ("VAR a: ARRAY 9 OF INTEGER; BEGIN a[0] := 0", "", "+a[8]", ""),
    "set_elements": ("VAR s: SET; i: INTEGER; BEGIN s := {", "0", ", i", "}"),
    "set_ranges": ("VAR s: SET; i: INTEGER; BEGIN s := {", "0", ", 1 .. i", "}"),
    "strings": ("CONST ", 's@ = "a@";\n', 's@ = "a@";\n', ""),
    "string_uses": ("VAR a: ARRAY 9 OF CHAR; BEGIN ", "", 'a := "a@";\n', ""),
}


def listed(before, first, further, behind, most):
    parts = [before, first.replace("@", "0")]
    length, number = len(before) + len(first), 0
    while length < most:
        number += 1
        part = further.replace("@", str(number)).replace("#", str(number - 1))
        parts.append(part)
        length += len(part)
    return "".join(parts) + behind


def first_half(before, part, most):
    """A list that fills half of the bytes, and how many parts it has."""
    text, number = before, 0
    parts = [text]
    length = len(text)
    while length < most / 2:
        number += 1
        parts.append(part.replace("@", str(number)))
        length += len(parts[-1])
    return "".join(parts), number


def open_comments(most):
    return "(*" * (most // 4) + "*)" * (most // 4)


def forwards(most):
    text, number = first_half("TYPE ", "P@ = POINTER TO R@;\n", most)
    return text + "".join(f"R{k} = RECORD END;\n" for k in range(1, number + 1))


def bases(most):
    text, number = first_half("TYPE R = RECORD f0", ", f@", most)
    return text + ": CHAR END;\n" + "".join(f"E{k} = RECORD (R) END;\n" for k in range(number // 3))


def type_cases(most):
    text, number = first_half("TYPE R = RECORD END;\n", "E@ = RECORD (R) END;\n", most)
    cases = "\n|".join(f" E{k}: r := r" for k in range(1, number + 1))
    return text + "PROCEDURE Q(VAR r: R); BEGIN CASE r OF" + cases + " END END Q;"


def long_string_uses(most):
    text, _ = first_half('CONST s = "', "x", most)
    return text + '"; VAR a: ARRAY 600000 OF CHAR; BEGIN\n' + "a := s;\n" * (most // 16)


def uses_of_names(most):
    text, number = first_half("VAR v0", ", v@", most)
    return text + ": INTEGER; BEGIN " + "".join(f"v{k * 7919 % number} := 1;\n" for k in range(number // 2))


def uses_of_fields(most):
    text, number = first_half("VAR r: RECORD f0", ", f@", most)
    return text + ": INTEGER END; BEGIN " + "".join(f"r.f{k * 7919 % number} := 1;\n" for k in range(number // 2))


def long_string_constants(most):
    text, _ = first_half('CONST s = "', "x", most)
    return text + '";\n' + "".join(f"c{k} = s;\n" for k in range(most // 24))


def procedure_types(most):
    text, number = first_half("TYPE T0 = RECORD END;\n", "T@ = ARRAY @ OF T0;\n", most)
    return text + "".join(f"P{k} = PROCEDURE (a: ARRAY OF T{k}; VAR b: T{k + 1});\n" for k in range(number // 3))


def of_locals(before, part, behind):
    """Statements of a procedure, each of which assigns a local variable of its own."""

    def text_of(most):
        text, number = first_half("PROCEDURE P; VAR b: BOOLEAN; v0", ", v@", most)
        parts, length, k = [], 0, 0
        while length < most / 2:
            parts.append(part.replace("@", str(k % number)))
            length += len(parts[-1])
            k += 1
        return text + ": INTEGER; BEGIN " + before + "".join(parts) + behind + " END P;"

    return text_of


def nested_loops_of_locals(most):
    nest = "".join(f"WHILE b DO v{k} := @;\n" for k in range(90)) + "END " * 90 + ";\n"
    return of_locals("", nest, "")(most)


LOCALS = {
    "elsifs_of_locals": of_locals("IF b THEN\n", "ELSIF b THEN v@ := 1\n", "END"),
    "cases_of_locals": of_locals("CASE v0 OF 999999:", "| @: v@ := 1\n", "END"),
    "loops_of_locals": of_locals("", "WHILE b DO v@ := 1 END;\n", ""),
    "ifs_of_locals": of_locals("", "IF b THEN v@ := 1 END;\n", ""),
    "assignments_of_locals": of_locals("", "v@ := v0;\n", ""),
}

OTHERS = [
    open_comments,
    forwards,
    bases,
    type_cases,
    procedure_types,
    long_string_uses,
    long_string_constants,
    uses_of_names,
    uses_of_fields,
    nested_loops_of_locals,
]


def main():
    others = {**{it.__name__: it for it in OTHERS}, **LOCALS}
    if len(sys.argv) == 1:
        print("\n".join([*LISTS, *others]))
        return
    kind, most = sys.argv[1], int(sys.argv[2])
    text = listed(*LISTS[kind], most) if kind in LISTS else others[kind](most)
    print("MODULE M;\n" + text + "\nEND M.")


main()
