\ nested loops over an array
create a 10000 cells allot
: element ( i j -- address ) 1- 100 * swap 1- + cells a + ;
: main ( -- )
  101 1 do
    101 1 do
      101 1 do
        i j * k + i j element !
      loop
    loop
  loop 99 98 element @ 10 .r cr ;
main bye
