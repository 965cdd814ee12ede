/* Whole numbers without bound: the machine may set x to 2147483648. */
MACHINE Over
VARIABLES x
INVARIANT x : INTEGER
INITIALISATION x := 0
OPERATIONS
  over = x := 2147483648
END
