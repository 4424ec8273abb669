\ sums with a test
: main ( -- )
  0 2000000 0 do
    1+ dup 1000 > if drop 0 then
  loop 10 .r cr ;
main bye
