(* How long it takes to come to 1 by halving even numbers and taking odd ones three times and one more:
   WHILE, FOR with a step, IF with ELSIF, and a VAR parameter. *)
MODULE Collatz;
  IMPORT Out;
  CONST last = 30;
  VAR start, steps, highest, longest, best: INTEGER;

  PROCEDURE Walk(n: INTEGER; VAR steps, highest: INTEGER);
  BEGIN
    steps := 0; highest := n;
    WHILE n # 1 DO
      IF ODD(n) THEN n := 3 * n + 1 ELSE n := n DIV 2 END;
      IF n > highest THEN highest := n END;
      INC(steps)
    END
  END Walk;

BEGIN
  longest := -1; best := 0;
  Out.String("start steps highest"); Out.Ln;
  FOR start := 3 TO last BY 3 DO
    Walk(start, steps, highest);
    Out.Int(start, 5); Out.Int(steps, 6); Out.Int(highest, 8);
    IF steps > 100 THEN Out.String(" long")
    ELSIF steps < 10 THEN Out.String(" short")
    END;
    Out.Ln;
    IF steps > longest THEN longest := steps; best := start END
  END;
  Out.String("longest from "); Out.Int(best, 0); Out.Ln
END Collatz.
