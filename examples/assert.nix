x: assert x != null; let y = x; in y

# names: 0 x, 1 y
# texts: 0 "x", 1 "null", 2 "y"
# expressions that the output can name:
#   0  x
#   1  null
#   3  x
#   4  y
