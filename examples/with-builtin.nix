with { map = 1; other = 1; }; [ map other ]

# names: 0 map, 1 other
# texts: 0 "map", 1 "other"
# expressions that the output can name:
#   0  1
#   1  1
#   3  map
#   4  other
#   6  with { map = 1; other = 1; }; [ map other ]
