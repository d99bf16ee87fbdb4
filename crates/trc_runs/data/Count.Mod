(* A filter: reads the input to its end, and counts lines, words and characters. In.Done is FALSE behind the end. *)
MODULE Count;
  IMPORT In, Out;
  VAR c: CHAR; lines, words, characters: INTEGER; inside: BOOLEAN;
BEGIN
  lines := 0; words := 0; characters := 0; inside := FALSE;
  In.Char(c);
  WHILE In.Done DO
    INC(characters);
    IF c = 0AX THEN INC(lines) END;
    IF c <= " " THEN inside := FALSE
    ELSIF ~inside THEN inside := TRUE; INC(words)
    END;
    In.Char(c)
  END;
  Out.Int(lines, 8); Out.Int(words, 8); Out.Int(characters, 8); Out.Ln
END Count.
