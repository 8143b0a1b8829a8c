x:
if x == "a" then
  let text = x; in text
else if x == 1 then
  let whole = x; in whole
else if x != 1.0 then
  let other = x; in other
else
  let fraction = x; in fraction

# names: 0 x, 1 text, 2 whole, 3 other, 4 fraction
# texts: 0 "x", 1 "a", 2 "text", 3 "whole", 4 "other", 5 "fraction"
# expressions that the output can name:
#   0  x
#   3  x
#   4  text
#   6  x
#   9  x
#  10  whole
#  12  x
#  15  x
#  16  other
#  18  x
#  19  fraction
