cert: key:
[
  (assert cert != null -> builtins.isString key;
  let asserted = [ cert key ]; in asserted)
  (if cert != null -> builtins.isString key then
    let holds = [ cert key ]; in holds
  else
    let fails = [ cert key ]; in fails)
  (if cert != null && !(builtins.isString key) then
    let same = [ cert key ]; in same
  else
    let other = [ cert key ]; in other)
]

# names: 0 cert, 1 key, 2 asserted, 3 holds, 4 fails, 5 same, 6 other
# texts: 0 "cert", 1 "key", 2 "null", 3 "builtins", 4 "isString", 5 "asserted", 6 "holds", 7 "fails", 8 "same", 9 "other"
# expressions that the output can name:
#   0  cert
#   1  null
#   3  builtins
#   6  key
#   9  cert
#  10  key
#  11  [ cert key ]
#  12  asserted
#  15  cert
#  16  null
#  18  builtins
#  21  key
#  24  cert
#  25  key
#  26  [ cert key ]
#  27  holds
#  29  cert
#  30  key
#  31  [ cert key ]
#  32  fails
#  35  cert
#  36  null
#  38  builtins
#  41  key
#  45  cert
#  46  key
#  47  [ cert key ]
#  48  same
#  50  cert
#  51  key
#  52  [ cert key ]
#  53  other
