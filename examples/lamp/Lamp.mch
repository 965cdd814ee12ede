/* A traffic lamp: red, green, amber, and red again. */
MACHINE Lamp
SETS COLOR = {red, amber, green}
VARIABLES col
INVARIANT col : COLOR /* the lamp */
INITIALISATION col := red
OPERATIONS
  next = IF col = red THEN col := green ELSIF col = green THEN col := amber ELSE col := red END ;
  cc <-- show = BEGIN cc := col END
END
