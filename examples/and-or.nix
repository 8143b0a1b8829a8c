x: y:
if x != null && builtins.isString y then
  let both = [ x y ]; in both
else if x == null || y == null then
  let unknown = [ x y ]; in unknown
else
  let neither = [ x y ]; in neither

# names: 0 x, 1 y, 2 both, 3 unknown, 4 neither
# texts: 0 "x", 1 "y", 2 "null", 3 "builtins", 4 "isString", 5 "both", 6 "unknown", 7 "neither"
# expressions that the output can name:
#   0  x
#   1  null
#   3  builtins
#   6  y
#   9  x
#  10  y
#  11  [ x y ]
#  12  both
#  14  x
#  15  null
#  17  y
#  18  null
#  21  x
#  22  y
#  23  [ x y ]
#  24  unknown
#  26  x
#  27  y
#  28  [ x y ]
#  29  neither
