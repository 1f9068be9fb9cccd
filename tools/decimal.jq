# The exact decimal text of a number that `sbe dump` prints as mantissa and exponent: {"mantissa":1234500,"exponent":-4} is
# "123.4500". It keeps as many digits after the point as the exponent says, and rounds nothing. null where either is null.
# jq before 1.7 reads numbers as doubles: mantissas from 2^53 on come out rounded there.
def decimal:
  if .mantissa == null or .exponent == null then null
  else
    .exponent as $exponent
    | (.mantissa | tostring) as $number
    | (if $number | startswith("-") then "-" else "" end) as $sign
    | ($number | ltrimstr("-")) as $digits
    | if $exponent >= 0 then
        $sign + if $digits == "0" then "0" else $digits + ([range($exponent) | "0"] | add // "") end
      else
        ([range(1 - $exponent - ($digits | length)) | "0"] | add // "") + $digits
        | $sign + .[:$exponent] + "." + .[$exponent:]
      end
  end;
