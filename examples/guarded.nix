x:
let
  isNull = builtins.isNull;
in if isNull x && !(builtins.hasAttr "f" x) && x == null then x else x

# names: 0 x, 1 isNull
# texts: 0 "x", 1 "isNull", 2 "builtins", 3 "hasAttr", 4 "f", 5 "null"
# expressions that the output can name:
#   0  x
#   1  builtins
#   3  builtins.isNull
#   4  isNull
#  13  null
