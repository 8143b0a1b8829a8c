x:
let
  inherit (let
    inherit (let
      inherit (let
        inherit (let
          inherit (let
            inherit (let
              inherit (let
                inherit (let
                  inherit (let
                    inherit (let
                      inherit (let
                        inherit (let
                          inherit (let inherit (x) a b; in a) a b;
                        in a) a b;
                      in a) a b;
                    in a) a b;
                  in a) a b;
                in a) a b;
              in a) a b;
            in a) a b;
          in a) a b;
        in a) a b;
      in a) a b;
    in a) a b;
  in a) a b;
in a

# names: 0 x, 1 a, 2 a, 3 a, 4 a, 5 a, 6 a, 7 a, 8 a, 9 a, 10 a, 11 a, 12 a, 13 a, 14 a, 15 b, 16 b, 17 b, 18 b, 19 b, 20 b, 21 b, 22 b, 23 b, 24 b, 25 b, 26 b, 27 b, 28 b
# texts: 0 "x", 1 "a", 2 "b"
# expressions that the output can name:
#   0  x
#   2  x.a
#   4  x.b
#   5  a
#   8  (let inherit (x) a b; in a).a
#  10  (let inherit (x) a b; in a).b
#  11  a
#  14  (let inherit (let inherit (x) a b; in a) a b; in a).a
#  16  (let inherit (let inherit (x) a b; in a) a b; in a).b
#  17  a
#  20  (let inherit (let inherit (let inherit (x) a b; in a) a b; in a) a b; ..
#  22  (let inherit (let inherit (let inherit (x) a b; in a) a b; in a) a b; ..
#  23  a
#  26  (let inherit (let inherit (let inherit (let inherit (x) a b; in a) a ..
#  28  (let inherit (let inherit (let inherit (let inherit (x) a b; in a) a ..
#  29  a
#  32  (let inherit (let inherit (let inherit (let inherit (let inherit (x) ..
#  34  (let inherit (let inherit (let inherit (let inherit (let inherit (x) ..
#  35  a
#  38  (let inherit (let inherit (let inherit (let inherit (let inherit (let ..
#  40  (let inherit (let inherit (let inherit (let inherit (let inherit (let ..
#  41  a
#  44  (let inherit (let inherit (let inherit (let inherit (let inherit (let ..
#  46  (let inherit (let inherit (let inherit (let inherit (let inherit (let ..
#  47  a
#  50  (let inherit (let inherit (let inherit (let inherit (let inherit (let ..
#  52  (let inherit (let inherit (let inherit (let inherit (let inherit (let ..
#  53  a
#  56  (let inherit (let inherit (let inherit (let inherit (let inherit (let ..
#  58  (let inherit (let inherit (let inherit (let inherit (let inherit (let ..
#  59  a
#  62  (let inherit (let inherit (let inherit (let inherit (let inherit (let ..
#  64  (let inherit (let inherit (let inherit (let inherit (let inherit (let ..
#  65  a
#  68  (let inherit (let inherit (let inherit (let inherit (let inherit (let ..
#  70  (let inherit (let inherit (let inherit (let inherit (let inherit (let ..
#  71  a
#  74  (let inherit (let inherit (let inherit (let inherit (let inherit (let ..
#  76  (let inherit (let inherit (let inherit (let inherit (let inherit (let ..
#  77  a
#  80  (let inherit (let inherit (let inherit (let inherit (let inherit (let ..
#  82  (let inherit (let inherit (let inherit (let inherit (let inherit (let ..
#  83  a
