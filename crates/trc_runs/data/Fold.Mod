(* Fold: a procedure that calls itself twice, so that values wait for a call in their homes. *)
MODULE Fold;
  IMPORT Out;

  (* How often <& "2"> stands in what the calls add up: text that a page has to escape. *)
  PROCEDURE Folded(n, least: INTEGER): INTEGER;
    VAR left, right: INTEGER;
  BEGIN
    IF n > least THEN
      left := Folded(n DIV 2, least); right := Folded(n - n DIV 2 - 1, least);
      IF left < right THEN left := left * n + right ELSE left := right * n - left END
    ELSE left := ORD(n = 2)
    END
  RETURN left
  END Folded;

BEGIN
  Out.Int(Folded(40, 2), 0); Out.Ln
END Fold.
