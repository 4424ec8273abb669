# a table of words with their counts, found by hashing; a word is a number of up to four digits here
define SIZE 11
integer word, slot, find, n
integer words(SIZE), counts(SIZE)
common /table/ words, counts
call empty
n = 0
repeat {
    read(5,1) word
    if (word < 0)
        break
    slot = find(word)
    if (slot == 0) {
        write(6,2) word
        next
        }
    if (counts(slot) == 0)
        n = n + 1
    words(slot) = word
    counts(slot) = counts(slot) + 1
    }
write(6,3) n
for (i = 1; i <= SIZE; i = i + 1)
    if (counts(i) > 0)
        write(6,4) i, words(i), counts(i)
1 format(i4)
2 format('no room for', i5)
3 format(i3, ' words')
4 format(i3, i6, i4)
stop
end

subroutine empty
integer words(SIZE), counts(SIZE)
common /table/ words, counts
do i = 1, SIZE
    counts(i) = 0
return
end

# where a word stands or may stand; zero where the table is full
integer function find(word)
integer word, words(SIZE), counts(SIZE), tries, hash
common /table/ words, counts
i = hash(word)
for (tries = 1; tries <= SIZE; tries = tries + 1) {
    if (counts(i) == 0)
        return (i)
    if (words(i) == word)
        return (i)
    i = mod(i, SIZE) + 1
    }
return (0)
end

integer function hash(word)
integer word
return (mod(word/100 + 7*mod(word, 100), SIZE) + 1)
end
