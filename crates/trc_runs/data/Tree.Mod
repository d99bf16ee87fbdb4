(* A binary tree that counts how often each letter stands in a text: pointers, and procedures that call themselves. *)
MODULE Tree;
  IMPORT Out;
  TYPE
    Tree = POINTER TO Node;
    Node = RECORD key: CHAR; count: INTEGER; left, right: Tree END;
  VAR root: Tree;

  PROCEDURE Count(VAR tree: Tree; key: CHAR);
  BEGIN
    IF tree = NIL THEN NEW(tree); tree.key := key; tree.count := 1
    ELSIF key < tree.key THEN Count(tree.left, key)
    ELSIF key > tree.key THEN Count(tree.right, key)
    ELSE INC(tree.count)
    END
  END Count;

  PROCEDURE Add(VAR tree: Tree; text: ARRAY OF CHAR);
    VAR i: INTEGER;
  BEGIN
    i := 0;
    WHILE (i < LEN(text)) & (text[i] # 0X) DO
      IF text[i] # " " THEN Count(tree, text[i]) END;
      INC(i)
    END
  END Add;

  (* In the order of the keys. *)
  PROCEDURE Show(tree: Tree);
  BEGIN
    IF tree # NIL THEN
      Show(tree.left);
      Out.Char(tree.key); Out.Int(tree.count, 2); Out.Ln;
      Show(tree.right)
    END
  END Show;

  PROCEDURE Height(tree: Tree): INTEGER;
    VAR left, right: INTEGER;
  BEGIN
    left := 0; right := 0;
    IF tree # NIL THEN left := Height(tree.left) + 1; right := Height(tree.right) + 1 END;
    IF right > left THEN left := right END
  RETURN left
  END Height;

BEGIN
  Add(root, "the rain in spain");
  Show(root);
  Out.String("height "); Out.Int(Height(root), 0); Out.Ln
END Tree.
