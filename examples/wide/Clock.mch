/* A clock that counts milliseconds. MAXINT and NAT are those of the range in the project file. */
MACHINE Clock
VARIABLES now
INVARIANT now : NAT
INITIALISATION now := 0
OPERATIONS
  pass(k) = PRE k : NAT & now + k <= MAXINT THEN now := now + k END ;   // k milliseconds pass
  r <-- read = r := now
END
