(* Sorting: recursion over a part of an open array that is a VAR parameter. LEN is the length of what is passed. *)
MODULE Sorting;
  IMPORT Out;
  VAR few: ARRAY 7 OF INTEGER; many: ARRAY 16 OF INTEGER; seed, i: INTEGER;

  (* Sorts the elements from `first` to `last`. *)
  PROCEDURE SortPart(VAR a: ARRAY OF INTEGER; first, last: INTEGER);
    VAR left, right, pivot, held: INTEGER;
  BEGIN
    IF first < last THEN
      left := first; right := last; pivot := a[(first + last) DIV 2];
      REPEAT
        WHILE a[left] < pivot DO INC(left) END;
        WHILE pivot < a[right] DO DEC(right) END;
        IF left <= right THEN
          held := a[left]; a[left] := a[right]; a[right] := held;
          INC(left); DEC(right)
        END
      UNTIL left > right;
      SortPart(a, first, right);
      SortPart(a, left, last)
    END
  END SortPart;

  PROCEDURE Sort(VAR a: ARRAY OF INTEGER);
  BEGIN SortPart(a, 0, LEN(a) - 1)
  END Sort;

  PROCEDURE IsSorted(a: ARRAY OF INTEGER): BOOLEAN;
    VAR i: INTEGER;
  BEGIN
    i := 1;
    WHILE (i < LEN(a)) & (a[i - 1] <= a[i]) DO INC(i) END
  RETURN i >= LEN(a)
  END IsSorted;

  PROCEDURE Show(a: ARRAY OF INTEGER);
    VAR i: INTEGER;
  BEGIN
    FOR i := 0 TO LEN(a) - 1 DO Out.Int(a[i], 4) END;
    IF IsSorted(a) THEN Out.String("  sorted") END;
    Out.Ln
  END Show;

BEGIN
  few[0] := 5; few[1] := -3; few[2] := 12; few[3] := 0; few[4] := 5; few[5] := -7; few[6] := 1;
  Show(few); Sort(few); Show(few);
  seed := 7;
  FOR i := 0 TO LEN(many) - 1 DO
    seed := (seed * 109 + 89) MOD 1000;
    many[i] := seed
  END;
  Show(many); Sort(many); Show(many)
END Sorting.
