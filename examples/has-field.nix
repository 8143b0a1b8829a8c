x:
if !(x ? key) then
  let lacks = x; in lacks
else if x ? a.b then
  let deep = x.key; in deep
else
  let has = x.key; in has

# names: 0 x, 1 lacks, 2 deep, 3 has
# texts: 0 "x", 1 "key", 2 "lacks", 3 "a", 4 "b", 5 "deep", 6 "has"
# expressions that the output can name:
#   0  x
#   4  x
#   5  lacks
#   7  x
#  11  x
#  13  x.key
#  14  deep
#  16  x
#  18  x.key
#  19  has
