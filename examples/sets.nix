base: x:
rec {
  inherit x;
  inherit (base) a b;
  c = [ a b ];
  d = { c = 1; e = c; };
}

# names: 0 base, 1 x, 2 x, 3 a, 4 b, 5 c, 6 d, 7 c, 8 e
# texts: 0 "base", 1 "x", 2 "a", 3 "b", 4 "c", 5 "d", 6 "e"
# expressions that the output can name:
#   0  x
#   1  base
#   3  base.a
#   5  base.b
#   6  a
#   7  b
#   8  [ a b ]
#   9  1
#  10  c
#  11  { c = 1; e = c; }
