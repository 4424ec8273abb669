# customers of two windows: a queue in COMMON, which goes round in its array
define ROOM 4
integer n, first, length, line(ROOM), leave
common /wait/ first, length, line
logical ok
first = 1
length = 0
for (n = 1; n <= 9; n = n + 1) {
    call come(10*n, ok)
    if (.not. ok)
        write(6,1) n
    if (mod(n, 3) == 0) {
        k = leave(1)
        l = leave(2)
        write(6,2) k, l
        }
    }
while (length > 0) {
    k = leave(1)
    write(6,3) k
    }
1 format(i3, ' is sent away')
2 format('windows', 2i4)
3 format('last', i4)
stop
end

subroutine come(n, ok)
integer n, first, length, line(ROOM)
logical ok
common /wait/ first, length, line
ok = length < ROOM
if (ok) {
    i = mod(first + length - 1, ROOM) + 1
    line(i) = n
    length = length + 1
    }
return
end

integer function leave(window)
integer window, first, length, line(ROOM)
common /wait/ first, length, line
leave = -window
if (length == 0)
    return
leave = line(first)
first = mod(first, ROOM) + 1
length = length - 1
return
end
