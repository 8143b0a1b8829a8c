{ limit ? null, fallback }:
{
  checked = if limit == null then
    fallback
  else
    let safe = limit; in safe;
  unchecked = let risky = limit; in risky;
}

# names: 0 limit, 1 fallback, 2 checked, 3 safe, 4 unchecked, 5 risky
# texts: 0 "limit", 1 "null", 2 "fallback", 3 "checked", 4 "safe", 5 "unchecked", 6 "risky"
# expressions that the output can name:
#   0  null
#   1  limit
#   2  null
#   4  fallback
#   5  limit
#   6  safe
#   8  if limit == null then fallback else let safe = limit; in safe
#   9  limit
#  10  risky
#  11  let risky = limit; in risky
