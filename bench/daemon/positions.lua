-- Requests for positions, each another node than the one before it.
local number = 0

request = function()
    number = number + 1
    local path = string.format("/collections/grid/position?coords=POINT(%d%%20%d)", number * 37 % 1000, number * 91 % 1000)
    return wrk.format("GET", path)
end
