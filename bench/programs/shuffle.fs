\ an array shuffled by a congruential function
create a 1001 cells allot
: element ( i -- address ) cells a + ;
: fill-in ( -- ) 1001 1 do i i element ! loop ;
: swap-with ( i n -- ) 2dup element @ swap element @ rot element ! swap element ! ;
: main ( -- )
  fill-in 1
  500 0 do
    1001 1 do
      171 * 11213 + 53125 mod
      dup 1000 mod 1+ i swap swap-with
    loop
  loop drop 1 element @ 10 .r 1000 element @ 10 .r cr ;
main bye
