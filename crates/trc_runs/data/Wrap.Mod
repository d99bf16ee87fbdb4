MODULE Wrap;
  IMPORT Out;
BEGIN
  Out.Int(9223372036854775807 + 1, 0); Out.Ln;
  Out.Int(-9223372036854775807 - 2, 0); Out.Ln;
  Out.Int(-(3 - 10) * 2, 0); Out.Ln
END Wrap.
