\ calls of a function
: next1 ( k -- k+1 ) 1+ ;
: main ( -- ) 0 1000000 0 do next1 loop 10 .r cr ;
main bye
