/* A tank with eight inlet valves, 0 to 7. What counts is which of them are open. */
MACHINE Tank
VARIABLES flowing
INVARIANT flowing <: 0..7   // the valves that are open
INITIALISATION flowing := {}
OPERATIONS
  turn_on(v) = PRE v : 0..7 THEN flowing := flowing \/ {v} END ;
  turn_off(v) = PRE v : 0..7 THEN flowing := flowing - {v} END ;
  /* the emergency stop */
  stop = flowing := {} ;
  b <-- is_on(v) = PRE v : 0..7 THEN b := bool(v : flowing) END
END
