lib: pkgs: with lib; with pkgs; let chosen = tool; in [ chosen lib ]

# names: 0 lib, 1 pkgs, 2 chosen
# texts: 0 "lib", 1 "pkgs", 2 "chosen", 3 "tool"
# expressions that the output can name:
#   0  lib
#   1  pkgs
#   2  tool
#   3  chosen
#   4  lib
#   7  with pkgs; let chosen = tool; in [ chosen lib ]
#   8  with lib; with pkgs; let chosen = tool; in [ chosen lib ]
