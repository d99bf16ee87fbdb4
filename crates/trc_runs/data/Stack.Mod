(* A module for others: it exports a type whose fields stay hidden, a variable that others can only read, and procedures.
   UseStack.Mod imports it. *)
MODULE Stack;
  CONST max* = 100;
  TYPE Stack* = RECORD items: ARRAY max OF INTEGER; top: INTEGER END;
  VAR pushes*: INTEGER;

  PROCEDURE Clear*(VAR s: Stack);
  BEGIN s.top := 0
  END Clear;

  PROCEDURE IsEmpty*(s: Stack): BOOLEAN;
  RETURN s.top = 0
  END IsEmpty;

  PROCEDURE Push*(VAR s: Stack; item: INTEGER);
  BEGIN
    ASSERT(s.top < max);
    s.items[s.top] := item; INC(s.top); INC(pushes)
  END Push;

  PROCEDURE Pop*(VAR s: Stack; VAR item: INTEGER);
  BEGIN
    ASSERT(s.top > 0);
    DEC(s.top); item := s.items[s.top]
  END Pop;

BEGIN
  pushes := 0
END Stack.
