MACHINE Stock
CONSTANTS most
PROPERTIES most : 1..100 & 100 / most = 10
VARIABLES n
INVARIANT n : 0..most & 100 / (n + 1) : 0..100
ASSERTIONS n <= 100 ; 100 / (most + n) : 0..100
INITIALISATION n := 0
OPERATIONS
  take = PRE n < most THEN n := n + 1 END ;
  r <-- share = r := 100 / most
END
