a: b: c: d:
assert a != null;
if builtins.isString b then
  if c ? key then
    if builtins.isList d then let all = [ a b c d ]; in all else 1
  else
    1
else
  let two = [ a b ]; in two

# names: 0 a, 1 b, 2 c, 3 d, 4 all, 5 two
# texts: 0 "a", 1 "b", 2 "c", 3 "d", 4 "null", 5 "builtins", 6 "isString", 7 "key", 8 "isList", 9 "all", 10 "two"
# expressions that the output can name:
#   0  a
#   1  null
#   3  builtins
#   6  b
#   8  c
#  11  builtins
#  14  d
#  16  a
#  17  b
#  18  c
#  19  d
#  20  [ a b c d ]
#  21  all
#  27  a
#  28  b
#  29  [ a b ]
#  30  two
