MODULE Squares;
  IMPORT Out;
BEGIN
  Out.Int(1, 3); Out.Int(1 * 1, 5); Out.Int(1 * 1 * 1, 7); Out.Ln;
  Out.Int(2, 3); Out.Int(2 * 2, 5); Out.Int(2 * 2 * 2, 7); Out.Ln;
  Out.Int(30, 3); Out.Int(30 * 30, 5); Out.Int(30 * 30 * 30, 7); Out.Ln
END Squares.
