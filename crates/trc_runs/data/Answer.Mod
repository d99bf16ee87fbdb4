MODULE Answer; IMPORT Out; BEGIN Out.Int(6 * 7, 0); Out.Ln END Answer.
