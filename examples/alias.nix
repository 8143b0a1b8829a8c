let
  inherit (builtins) isString;
  p = builtins.isNull;
in x:
[
  (if isString x then let seen = x; in seen else 1)
  (if p x then let unseen = x; in unseen else 1)
]

# names: 0 isString, 1 p, 2 x, 3 seen, 4 unseen
# texts: 0 "isString", 1 "builtins", 2 "p", 3 "isNull", 4 "x", 5 "seen", 6 "unseen"
# expressions that the output can name:
#   0  builtins
#   2  builtins.isString
#   3  builtins
#   5  builtins.isNull
#   6  isString
#   7  x
#   9  x
#  10  seen
#  14  p
#  15  x
#  17  x
#  18  unseen
