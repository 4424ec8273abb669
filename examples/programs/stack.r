# the numbers of the input in the opposite order, by a stack in COMMON
define MOST 50
integer n, pop, many
call clear
repeat {
    read(5,1) n
    if (n == 0)
        break
    call push(n)
    }
n = many(0)
write(6,2) n
while (many(0) > 0) {
    n = pop(0)
    write(6,3) n
    }
1 format(i5)
2 format('kept', i4)
3 format(i6)
stop
end

# nothing is on the stack
subroutine clear
integer depth, items(MOST)
common /stack/ depth, items
depth = 0
return
end

# one more, unless the stack is full
subroutine push(n)
integer n, depth, items(MOST)
common /stack/ depth, items
if (depth < MOST) {
    depth = depth + 1
    items(depth) = n
    }
return
end

# the last that was put on it; how many are to stay below is not asked
integer function pop(none)
integer none, depth, items(MOST)
common /stack/ depth, items
pop = items(depth)
depth = depth - 1
return
end

# how many are there
integer function many(none)
integer none, depth, items(MOST)
common /stack/ depth, items
return (depth)
end
