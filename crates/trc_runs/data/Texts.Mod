(* Texts: strings, arrays of CHAR, how they are compared and copied, and numbers as texts. *)
MODULE Texts;
  IMPORT Out;
  CONST digits = "0123456789ABCDEF";
  TYPE Name = ARRAY 12 OF CHAR;
  VAR names: ARRAY 4 OF Name; line: ARRAY 40 OF CHAR; held: Name; hexadecimal: ARRAY 17 OF CHAR; i, j: INTEGER;

  PROCEDURE Length(text: ARRAY OF CHAR): INTEGER;
    VAR i: INTEGER;
  BEGIN
    i := 0;
    WHILE (i < LEN(text)) & (text[i] # 0X) DO INC(i) END
  RETURN i
  END Length;

  (* Appends a text, as much as there is room for. *)
  PROCEDURE Append(VAR line: ARRAY OF CHAR; text: ARRAY OF CHAR);
    VAR at, i: INTEGER;
  BEGIN
    at := Length(line); i := 0;
    WHILE (i < Length(text)) & (at < LEN(line) - 1) DO
      line[at] := text[i]; INC(at); INC(i)
    END;
    line[at] := 0X
  END Append;

  (* The text of a number in hexadecimal, with as many digits as there is room for. *)
  PROCEDURE ToHexadecimal(n: INTEGER; VAR text: ARRAY OF CHAR);
    VAR i: INTEGER; digit: ARRAY 17 OF CHAR;
  BEGIN
    digit := digits;
    text[LEN(text) - 1] := 0X;
    FOR i := LEN(text) - 2 TO 0 BY -1 DO
      text[i] := digit[n MOD 16]; n := n DIV 16
    END
  END ToHexadecimal;

  PROCEDURE Pad(text: ARRAY OF CHAR; width: INTEGER);
    VAR i: INTEGER;
  BEGIN
    FOR i := Length(text) + 1 TO width DO Out.Char(" ") END;
    Out.String(text)
  END Pad;

BEGIN
  names[0] := "curlew"; names[1] := "avocet"; names[2] := "dunlin"; names[3] := "curl";
  FOR i := 1 TO 3 DO
    j := i; held := names[i];
    WHILE (j > 0) & (held < names[j - 1]) DO names[j] := names[j - 1]; DEC(j) END;
    names[j] := held
  END;
  FOR i := 0 TO 3 DO
    Pad(names[i], 10); Out.Int(Length(names[i]), 3); Out.Ln;
    Append(line, names[i]); Append(line, "/")
  END;
  Out.String(line); Out.Ln;
  ToHexadecimal(-2, hexadecimal); Out.String(hexadecimal); Out.Ln;
  ToHexadecimal(48879, held); Out.String(held); Out.Ln;
  IF (names[0] = "avocet") & (names[1] # "avocet") & (names[1] <= "curlew") THEN Out.String("in order"); Out.Ln END
END Texts.
