MACHINE Stock
VARIABLES stock
INVARIANT stock : 0..50
INITIALISATION stock := 0
OPERATIONS
  refill = stock := 50 ;
  take = PRE 1 <= stock THEN stock := stock - 1 END ;
  n <-- count = n := stock
END
