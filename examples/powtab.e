# A table of powers.
procedure
write( , '  n', '   n**2', '   n**3', '   n**4', '   n**5')
do n = -2, 10, 3
    write( , n:i(3), n**2:i(7), n**3:i(7), n**4:i(7), n**5:i(7))
end
