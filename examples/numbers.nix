let
  step = 1.0;
in if step == 1 then
  let equal = step; in equal
else if builtins.isInt step then let whole = step; in whole else step

# names: 0 step, 1 equal, 2 whole
# texts: 0 "step", 1 "equal", 2 "builtins", 3 "isInt", 4 "whole"
# expressions that the output can name:
#   0  1.0
#   1  step
#   4  step
#   5  equal
#   7  builtins
#  10  step
#  12  step
#  13  whole
#  15  step
