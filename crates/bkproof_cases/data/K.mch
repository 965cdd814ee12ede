MACHINE K
SETS S = {a, b}
CONSTANTS c
PROPERTIES c : 1..9 & 9 / c >= 0
VARIABLES n, t
INVARIANT n : 0..9 & t : S & n / c <= 9
ASSERTIONS 0 <= n ; n / c >= 0
INITIALISATION n := 0 || t := a
OPERATIONS
  r <-- get = r := n / c ;
  inc = PRE n < 9 THEN n := n + 1 END
END
