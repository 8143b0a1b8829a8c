x:
[
  (if builtins.isString x then let seen = x; in seen else 1)
  (let
    builtins = { isString = q: true; };
  in if builtins.isString x then let unseen = x; in unseen else 1)
]

# names: 0 x, 1 seen, 2 builtins, 3 isString, 4 q, 5 unseen
# texts: 0 "x", 1 "builtins", 2 "isString", 3 "seen", 4 "q", 5 "true", 6 "unseen"
# expressions that the output can name:
#   0  builtins
#   3  x
#   5  x
#   6  seen
#  10  true
#  11  q: true
#  12  { isString = q: true; }
#  13  builtins
#  16  x
#  18  x
#  19  unseen
