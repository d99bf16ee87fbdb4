(* The greatest common divisor: a procedure with a result, WHILE with ELSIF, and MOD. *)
MODULE Gcd;
  IMPORT Out;

  (* By subtraction: as long as one number is greater, it is lessened by the other. *)
  PROCEDURE BySubtraction(a, b: INTEGER): INTEGER;
  BEGIN
    WHILE a > b DO a := a - b
    ELSIF b > a DO b := b - a
    END
  RETURN a
  END BySubtraction;

  (* By remainders, and with a call of itself. *)
  PROCEDURE ByRemainder(a, b: INTEGER): INTEGER;
  BEGIN
    IF b # 0 THEN a := ByRemainder(b, a MOD b) END
  RETURN a
  END ByRemainder;

  PROCEDURE Show(a, b: INTEGER);
  BEGIN
    Out.Int(a, 8); Out.Int(b, 8);
    Out.Int(BySubtraction(a, b), 8); Out.Int(ByRemainder(a, b), 8); Out.Ln
  END Show;

BEGIN
  Show(12, 18);
  Show(1071, 462);
  Show(100, 35);
  Show(17, 4)
END Gcd.
