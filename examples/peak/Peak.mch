/* All the numbers that were put in, of which the greatest can be asked. */
MACHINE Peak
VARIABLES seen
INVARIANT seen <: 0..100 & 0 : seen   // never empty, so that there is a greatest
INITIALISATION seen := {0}
OPERATIONS
  put(k) = PRE k : 1..100 THEN seen := seen \/ {k} END ;
  r <-- top = r := max(seen)
END
