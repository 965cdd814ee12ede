MACHINE Sum
OPERATIONS
  r <-- sum = r := 0
END
