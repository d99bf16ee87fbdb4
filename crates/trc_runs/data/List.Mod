(* A linked list of records that NEW makes: the base of a pointer type may be declared behind it. *)
MODULE List;
  IMPORT Out;
  TYPE
    Node = POINTER TO NodeDesc;
    NodeDesc = RECORD value: INTEGER; next: Node END;
  VAR list: Node; i: INTEGER;

  (* Puts a value into its place in a list that rises. *)
  PROCEDURE Insert(VAR list: Node; value: INTEGER);
    VAR node: Node;
  BEGIN
    IF (list = NIL) OR (value <= list.value) THEN
      NEW(node); node.value := value; node.next := list; list := node
    ELSE Insert(list.next, value)
    END
  END Insert;

  PROCEDURE Reverse(VAR list: Node);
    VAR done, node: Node;
  BEGIN
    done := NIL;
    WHILE list # NIL DO
      node := list; list := list.next;
      node.next := done; done := node
    END;
    list := done
  END Reverse;

  PROCEDURE Show(list: Node);
  BEGIN
    WHILE list # NIL DO Out.Int(list.value, 4); list := list.next END;
    Out.Ln
  END Show;

BEGIN
  list := NIL;
  FOR i := 1 TO 8 DO Insert(list, i * 37 MOD 50) END;
  Show(list);
  Reverse(list);
  Show(list)
END List.
