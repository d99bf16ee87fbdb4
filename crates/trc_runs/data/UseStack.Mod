(* A module that imports another one, under a name of its own. Both files are named on the command line, the imported one
   first. *)
MODULE UseStack;
  IMPORT S := Stack, Out;
  VAR stack: S.Stack; i, item: INTEGER;
BEGIN
  S.Clear(stack);
  FOR i := 1 TO 5 DO S.Push(stack, i * i) END;
  WHILE ~S.IsEmpty(stack) DO
    S.Pop(stack, item); Out.Int(item, 4)
  END;
  Out.Ln;
  Out.Int(S.pushes, 0); Out.String(" of "); Out.Int(S.max, 0); Out.Ln
END UseStack.
