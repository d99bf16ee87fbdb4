(* Procedures as values: variables, parameters and arrays of a procedure type. *)
MODULE Functions;
  IMPORT Out;
  TYPE Function = PROCEDURE (x: INTEGER): INTEGER;
  VAR table: ARRAY 4 OF Function; chosen: Function; i: INTEGER;

  PROCEDURE Square(x: INTEGER): INTEGER;
  RETURN x * x
  END Square;

  PROCEDURE Double(x: INTEGER): INTEGER;
  RETURN 2 * x
  END Double;

  PROCEDURE Negate(x: INTEGER): INTEGER;
  RETURN -x
  END Negate;

  (* The sum of f over the numbers from `first` to `last`. *)
  PROCEDURE Sum(f: Function; first, last: INTEGER): INTEGER;
    VAR sum: INTEGER;
  BEGIN
    sum := 0;
    WHILE first <= last DO sum := sum + f(first); INC(first) END
  RETURN sum
  END Sum;

  (* Two functions, one behind the other. *)
  PROCEDURE Both(f, g: Function; x: INTEGER): INTEGER;
  RETURN g(f(x))
  END Both;

BEGIN
  table[0] := Square; table[1] := Double; table[2] := Negate;
  FOR i := 0 TO LEN(table) - 1 DO
    chosen := table[i];
    IF chosen = NIL THEN Out.String("none")
    ELSE Out.Int(chosen(7), 0); Out.Int(Sum(chosen, 1, 10), 8)
    END;
    IF chosen = Double THEN Out.String("  doubles") END;
    Out.Ln
  END;
  Out.Int(Both(Square, Negate, 9), 0); Out.Ln
END Functions.
