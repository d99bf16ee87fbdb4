(* Power: the powers of 3 that have at most four digits. *)
MODULE Power;
  IMPORT Out;
  VAR n: INTEGER;
BEGIN
  n := 1;
  WHILE n < 10000 DO Out.Int(n, 6); n := n * 3 END;
  Out.Ln
END Power.
