MACHINE A
VARIABLES n
INVARIANT n : 0..10
INITIALISATION n :: 0..10
OPERATIONS
  a = CHOICE n := n + 0
    OR n := n + 0
    OR n := n + 0
    OR n := n + 0
    OR n := n + 0
    OR n := n + 0
    OR n := n + 0
    OR n := n + 0
    OR n := n + 0
    OR n := n + 0
    OR n := n + 0
    OR n := n + 0
    OR n := n + 0
    OR n := n + 0
    OR n := n + 0
    OR n := n + 0
  END
END
