/* Two numbers, which an operation exchanges. */
MACHINE Swap
VARIABLES x, y
INVARIANT x : 0..100 & y : 0..100
INITIALISATION x, y := 1, 2
OPERATIONS
  /* both at once: each takes what the other was before */
  swap = x := y || y := x ;
  a, b <-- both = a, b := x, y
END
