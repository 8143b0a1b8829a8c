x: if x == null then let y = x; in y else x

# names: 0 x, 1 y
# texts: 0 "x", 1 "null", 2 "y"
# expressions that the output can name:
#   0  x
#   1  null
#   3  x
#   4  y
#   6  x
