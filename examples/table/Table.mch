/* A table of ten numbers, which can be filled and read. */
MACHINE Table
VARIABLES f
INVARIANT f : 0..9 --> INT   // an entry at each of 0 to 9
INITIALISATION f := (0..9) * {0}
OPERATIONS
  /* every entry becomes 7 */
  fill = f := (0..9) * {7} ;
  r <-- read(i) = PRE i : 0..9 THEN r := f(i) END
END
