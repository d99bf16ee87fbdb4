(* Extension: records that extend another, pointers to them in one array, a type test, a guard, and CASE on types. *)
MODULE Shapes;
  IMPORT Out;
  TYPE
    Shape = POINTER TO ShapeDesc;
    ShapeDesc = RECORD x, y: INTEGER END;
    Box = POINTER TO BoxDesc;
    BoxDesc = RECORD (ShapeDesc) width, height: INTEGER END;
    Square = POINTER TO SquareDesc;
    SquareDesc = RECORD (BoxDesc) END;
    Label = POINTER TO LabelDesc;
    LabelDesc = RECORD (ShapeDesc) text: ARRAY 16 OF CHAR END;
  VAR shapes: ARRAY 5 OF Shape; box: Box; square: Square; label: Label; i: INTEGER;

  (* The first part whose type fits is done; in it the variable has that type. *)
  PROCEDURE Tell(shape: Shape);
  BEGIN
    CASE shape OF
      Square: Out.String("square "); Out.Int(shape.width, 0)
    | Box: Out.String("box "); Out.Int(shape.width, 0); Out.String(" x "); Out.Int(shape.height, 0)
    | Label: Out.String("label "); Out.String(shape.text)
    | Shape: Out.String("shape")
    END
  END Tell;

  PROCEDURE Area(shape: Shape): INTEGER;
    VAR area: INTEGER;
  BEGIN
    area := 0;
    IF shape IS Box THEN area := shape(Box).width * shape(Box).height END
  RETURN area
  END Area;

  (* A VAR parameter of a record type has the type of its argument. *)
  PROCEDURE Move(VAR shape: ShapeDesc; x, y: INTEGER);
  BEGIN
    INC(shape.x, x); INC(shape.y, y);
    IF shape IS LabelDesc THEN shape(LabelDesc).text := "moved" END
  END Move;

BEGIN
  NEW(shapes[0]);
  NEW(box); box.width := 4; box.height := 3; shapes[1] := box;
  NEW(square); square.width := 5; square.height := 5; shapes[2] := square;
  NEW(label); label.text := "here"; shapes[3] := label;
  FOR i := 0 TO LEN(shapes) - 1 DO
    IF shapes[i] # NIL THEN
      Tell(shapes[i]);
      Move(shapes[i]^, i, 10 * i);
      Out.String(", area "); Out.Int(Area(shapes[i]), 0);
      Out.String(", at "); Out.Int(shapes[i].x, 0); Out.Char(","); Out.Int(shapes[i].y, 0)
    ELSE Out.String("none")
    END;
    Out.Ln
  END;
  Tell(label); Out.Ln
END Shapes.
