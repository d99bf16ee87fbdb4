(* A small interpreter: a machine with a stack runs a program that is an array of records. CASE on numbers with a range,
   constants as names of operations, a BYTE in a record, and records that are copied. *)
MODULE Interpreter;
  IMPORT Out;
  CONST
    push = 0; add = 1; sub = 2; mul = 3; load = 4; store = 5; jump = 6; jumpIfZero = 7; print = 8; stop = 9;
    maxCode = 64; maxStack = 16; maxCells = 8;
  TYPE Instruction = RECORD operation: BYTE; operand: INTEGER END;
  VAR code: ARRAY maxCode OF Instruction; size: INTEGER;

  PROCEDURE Emit(operation, operand: INTEGER);
  BEGIN
    code[size].operation := operation; code[size].operand := operand; INC(size)
  END Emit;

  PROCEDURE Run(code: ARRAY OF Instruction);
    VAR stack: ARRAY maxStack OF INTEGER; cells: ARRAY maxCells OF INTEGER; at, top, steps: INTEGER;
      running: BOOLEAN; now: Instruction;
  BEGIN
    at := 0; top := 0; steps := 0; running := TRUE;
    WHILE running DO
      now := code[at]; INC(at); INC(steps);
      CASE now.operation OF
        push: stack[top] := now.operand; INC(top)
      | add .. mul:
          DEC(top);
          IF now.operation = add THEN stack[top - 1] := stack[top - 1] + stack[top]
          ELSIF now.operation = sub THEN stack[top - 1] := stack[top - 1] - stack[top]
          ELSE stack[top - 1] := stack[top - 1] * stack[top]
          END
      | load: stack[top] := cells[now.operand]; INC(top)
      | store: DEC(top); cells[now.operand] := stack[top]
      | jump: at := now.operand
      | jumpIfZero: DEC(top); IF stack[top] = 0 THEN at := now.operand END
      | print: DEC(top); Out.Int(stack[top], 0); Out.Ln
      | stop: running := FALSE
      END
    END;
    Out.String("steps "); Out.Int(steps, 0); Out.Ln
  END Run;

BEGIN
  (* The product of the numbers from 10 down to 1: cell 0 counts down, cell 1 has the product so far. *)
  size := 0;
  Emit(push, 10); Emit(store, 0);
  Emit(push, 1); Emit(store, 1);
  Emit(load, 0); Emit(jumpIfZero, 15);
  Emit(load, 1); Emit(load, 0); Emit(mul, 0); Emit(store, 1);
  Emit(load, 0); Emit(push, 1); Emit(sub, 0); Emit(store, 0);
  Emit(jump, 4);
  Emit(load, 1); Emit(print, 0);
  Emit(stop, 0);
  Run(code)
END Interpreter.
