(* A trap on purpose: the loop goes one step too far, and its last index isn't below the length. What was written before
   stays written; the program then ends with trap 1. *)
MODULE Range;
  IMPORT Out;
  VAR a: ARRAY 4 OF INTEGER; i: INTEGER;
BEGIN
  FOR i := 0 TO LEN(a) DO
    a[i] := i * i;
    Out.Int(a[i], 0); Out.Ln
  END
END Range.
