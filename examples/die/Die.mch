/* A die. What is thrown is any number from 1 to 6. */
MACHINE Die
VARIABLES x
INVARIANT x : 1..6
INITIALISATION x := 1
OPERATIONS
  throw = x :: 1..6 ;
  r <-- look = r := x
END
