(* Matrices: arrays of arrays, copied and as parameters. An array by value is its argument's variable, without a copy. The
   powers of one matrix have the Fibonacci numbers. *)
MODULE Matrices;
  IMPORT Out;
  CONST size = 2;
  TYPE Matrix = ARRAY size, size OF INTEGER;
  VAR step, power: Matrix; n: INTEGER;

  PROCEDURE SetToOne(VAR a: Matrix);
    VAR i, j: INTEGER;
  BEGIN
    FOR i := 0 TO size - 1 DO
      FOR j := 0 TO size - 1 DO a[i, j] := ORD(i = j) END
    END
  END SetToOne;

  (* a := a * b. The product is made in a variable of its own, since b may be a. *)
  PROCEDURE Multiply(VAR a: Matrix; b: Matrix);
    VAR i, j, k: INTEGER; product: Matrix;
  BEGIN
    FOR i := 0 TO size - 1 DO
      FOR j := 0 TO size - 1 DO
        FOR k := 0 TO size - 1 DO product[i][j] := product[i][j] + a[i, k] * b[k, j] END
      END
    END;
    a := product
  END Multiply;

  PROCEDURE Raise(a: Matrix; n: INTEGER; VAR power: Matrix);
    VAR square: Matrix;
  BEGIN
    SetToOne(power); square := a;
    WHILE n > 0 DO
      IF ODD(n) THEN Multiply(power, square) END;
      Multiply(square, square); n := n DIV 2
    END
  END Raise;

BEGIN
  step[0, 0] := 1; step[0, 1] := 1; step[1, 0] := 1; step[1, 1] := 0;
  FOR n := 10 TO 90 BY 20 DO
    Raise(step, n, power);
    Out.Int(n, 3); Out.Int(power[0, 1], 21); Out.Ln
  END
END Matrices.
