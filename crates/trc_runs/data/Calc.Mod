(* A calculator: reads sums of products of numbers and parentheses, a line each, and prints their values.
   CASE on characters, and a procedure that calls itself in place of one for each level of the grammar. *)
MODULE Calc;
  IMPORT In, Out;
  CONST sum = 0; product = 1; factor = 2; newLine = 0AX;
  VAR next: CHAR; wrong: BOOLEAN;

  (* Takes the next character that is no blank. *)
  PROCEDURE Skip;
  BEGIN
    REPEAT In.Char(next) UNTIL next # " "
  END Skip;

  (* Reads a sum, a product or a factor, and gives its value. *)
  PROCEDURE Value(level: INTEGER): INTEGER;
    VAR value, right: INTEGER; operator: CHAR;
  BEGIN
    value := 0;
    IF level < factor THEN
      value := Value(level + 1);
      WHILE (level = sum) & ((next = "+") OR (next = "-")) OR (level = product) & ((next = "*") OR (next = "/")) DO
        operator := next; Skip;
        right := Value(level + 1);
        CASE operator OF
          "+": value := value + right
        | "-": value := value - right
        | "*": value := value * right
        | "/": IF right > 0 THEN value := value DIV right ELSE wrong := TRUE END
        END
      END
    ELSIF (next >= "0") & (next <= "9") THEN
      REPEAT
        value := value * 10 + (ORD(next) - ORD("0")); In.Char(next)
      UNTIL (next < "0") OR (next > "9");
      IF next = " " THEN Skip END
    ELSIF next = "(" THEN
      Skip; value := Value(sum);
      IF next = ")" THEN Skip ELSE wrong := TRUE END
    ELSIF next = "-" THEN
      Skip; value := -Value(factor)
    ELSE wrong := TRUE
    END
  RETURN value
  END Value;

  PROCEDURE Line;
    VAR value: INTEGER;
  BEGIN
    wrong := FALSE; value := Value(sum);
    IF wrong OR (next # newLine) THEN
      Out.String("wrong");
      WHILE In.Done & (next # newLine) DO In.Char(next) END
    ELSE Out.Int(value, 0)
    END;
    Out.Ln
  END Line;

BEGIN
  Skip;
  WHILE In.Done DO Line; Skip END
END Calc.
