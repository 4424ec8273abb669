-- nested loops over an array
local a = {}
for j = 1, 100 do a[j] = {} end
for k = 1, 100 do
  for j = 1, 100 do
    local row = a[j]
    for i = 1, 100 do row[i] = i * j + k end
  end
end
print(string.format("%10d", a[98][99]))
