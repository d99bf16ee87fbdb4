(* Sets of the numbers 0 to 63: constructors, union, difference, intersection, symmetric difference, complement, IN,
   inclusion, INCL and EXCL, and the number whose bits a set has. *)
MODULE Sets;
  IMPORT Out;
  CONST odd = {1, 3, 5, 7, 9}; small = {0 .. 4};
  VAR s, letters: SET; i: INTEGER; text: ARRAY 32 OF CHAR;

  PROCEDURE Show(s: SET);
    VAR i: INTEGER; first: BOOLEAN;
  BEGIN
    Out.Char("{"); first := TRUE;
    FOR i := 0 TO 63 DO
      IF i IN s THEN
        IF ~first THEN Out.Char(",") END;
        Out.Int(i, 0); first := FALSE
      END
    END;
    Out.Char("}"); Out.Ln
  END Show;

  PROCEDURE Size(s: SET): INTEGER;
    VAR i, size: INTEGER;
  BEGIN
    size := 0;
    FOR i := 0 TO 63 DO IF i IN s THEN INC(size) END END
  RETURN size
  END Size;

BEGIN
  Show(odd); Show(small);
  Show(odd + small); Show(odd - small); Show(odd * small); Show(odd / small);
  Out.Int(Size(-odd), 0); Out.Ln;
  IF {1, 3} <= odd THEN Out.String("{1,3} is in the odd ones"); Out.Ln END;
  s := {};
  FOR i := 1 TO 6 DO INCL(s, i * i) END;
  EXCL(s, 16); Show(s);
  Out.Int(ORD({0, 4, 5}), 0); Out.Ln;
  text := "a set of letters"; letters := {};
  FOR i := 0 TO 15 DO
    IF (text[i] >= "a") & (text[i] <= "z") THEN INCL(letters, ORD(text[i]) - ORD("a")) END
  END;
  FOR i := 0 TO 25 DO IF i IN letters THEN Out.Char(CHR(ORD("a") + i)) END END;
  Out.Ln
END Sets.
