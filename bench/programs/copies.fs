\ characters copied from one array to another
create a 81 cells allot
create b 81 cells allot
: fill-in ( -- ) 81 1 do 31 i + a i cells + ! loop ;
: show ( -- ) 81 1 do b i cells + @ emit loop cr ;
: main ( -- )
  fill-in
  20000 0 do
    81 1 do a i cells + @ b i cells + ! loop
  loop show ;
main bye
