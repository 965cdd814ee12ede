MACHINE T
VARIABLES n, b
INVARIANT n : 0..10 & b : BOOL
INITIALISATION n, b := 0, TRUE
OPERATIONS
  inc(k) = PRE k : 1..10 & n + k <= 10 THEN n := n + k END
END
