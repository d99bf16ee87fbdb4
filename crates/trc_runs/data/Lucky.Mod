(* A sieve: of the numbers from 1 on every second is struck out, then of those that are left every third, then every
   seventh, and so on: the step is each time the next number that is left. An array of BOOLEAN, and loops in loops. *)
MODULE Lucky;
  IMPORT Out;
  CONST last = 120;
  VAR struck: ARRAY last + 1 OF BOOLEAN; step, column, n: INTEGER;

  (* Strikes out each number whose turn comes when those that are left are counted off by `step`. *)
  PROCEDURE Strike(step: INTEGER);
    VAR n, count: INTEGER;
  BEGIN
    count := 0;
    FOR n := 1 TO last DO
      IF ~struck[n] THEN
        INC(count);
        IF count MOD step = 0 THEN struck[n] := TRUE END
      END
    END
  END Strike;

  (* The next number above n that is left, or one above the last. *)
  PROCEDURE Next(n: INTEGER): INTEGER;
  BEGIN
    REPEAT INC(n) UNTIL (n > last) OR ~struck[n]
  RETURN n
  END Next;

BEGIN
  Strike(2);
  step := Next(1);
  WHILE step <= last DO Strike(step); step := Next(step) END;
  column := 0; n := Next(0);
  WHILE n <= last DO
    Out.Int(n, 4); INC(column);
    IF column MOD 10 = 0 THEN Out.Ln END;
    n := Next(n)
  END;
  Out.Ln
END Lucky.
