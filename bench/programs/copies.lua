-- characters copied from one table to another
local a, b = {}, {}
for i = 1, 80 do a[i] = 31 + i end
for k = 1, 20000 do
  for i = 1, 80 do b[i] = a[i] end
end
print(string.char(table.unpack(b)))
