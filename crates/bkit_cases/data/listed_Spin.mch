MACHINE Counter
VARIABLES n
INVARIANT n : 0..10
INITIALISATION n := 0
OPERATIONS
  reset = n := 0 ;
  setmax = n := 10 ;
  r <-- get = r := n ;
  spin = skip
END
