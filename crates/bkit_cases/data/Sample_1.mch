MACHINE Sample
VARIABLES
  x1
INVARIANT
  x1 : 0..100
INITIALISATION
  x1 := 0
OPERATIONS
  add_1(k) = PRE k : 1..10 & x1 + k <= 100 THEN x1 := x1 + k END ;
  r <-- get_1 = r := x1
END
