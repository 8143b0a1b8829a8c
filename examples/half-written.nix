x:
if x == null then
  /* missing */
else
  let y = x./* missing */; z = /* missing */; in [ y /* missing */ ]

# names: 0 x, 1 y, 2 z
# texts: 0 "x", 1 "null", 2 "y", 3 "z"
# expressions that the output can name:
#   0  x
#   1  null
#   4  x
#   5  x./* missing */
#   6  /* missing */
#   7  y
