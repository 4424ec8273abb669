# routines for texts in integer arrays, which end with a zero
define LONG 40
integer text(LONG), other(LONG), k, length, seek
logical same
call getlin(text, LONG)
while (length(text) > 0) {
    call copy(text, other)
    call turn(other)
    k = length(text)
    write(6,1) k
    call putlin(text)
    call putlin(other)
    if (same(text, other))
        write(6,2)
    k = seek(text, 97)
    if (k > 0)
        write(6,3) k
    call getlin(text, LONG)
    }
1 format(i3, ' characters')
2 format('the same from behind')
3 format('an a at', i3)
stop
end

# a line without the blanks at its end
subroutine getlin(text, n)
integer n, text(n), last
last = n - 1
read(5,1) (text(i), i = 1, last)
for (k = n; k > 1; k = k - 1)
    if (text(k-1) != 32)
        break
text(k) = 0
1 format(39a1)
return
end

subroutine putlin(text)
integer text(LONG), n, length
n = length(text)
write(6,1) (text(i), i = 1, n)
1 format(39a1)
return
end

integer function length(text)
integer text(LONG)
for (i = 1; text(i) != 0; i = i + 1)
    ;
return (i - 1)
end

subroutine copy(from, into)
integer from(LONG), into(LONG)
i = 0
repeat {
    i = i + 1
    into(i) = from(i)
    }
    until (from(i) == 0)
return
end

subroutine turn(text)
integer text(LONG), length
j = length(text)
for (i = 1; i < j; i = i + 1) {
    k = text(i)
    text(i) = text(j)
    text(j) = k
    j = j - 1
    }
return
end

logical function same(one, other)
integer one(LONG), other(LONG)
same = .false.
for (i = 1; one(i) == other(i); i = i + 1)
    if (one(i) == 0)
        return (.true.)
return
end

# where a character stands first
integer function seek(text, c)
integer text(LONG), c
for (i = 1; text(i) != 0; i = i + 1)
    if (text(i) == c)
        return (i)
return (0)
end
