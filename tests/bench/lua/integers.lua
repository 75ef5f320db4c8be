-- The recipes over a row of pixels for Lua 5.4, whose integers have 64 bits: a mask after products and sums leaves what
-- ints of 32 bits leave. With the top bit flipped and 2^31 taken away it is the same with its sign.

return {
    ["recipe-8"] = function(r, g, b, out)
        for i = 1, #r do
            out[i] = (r[i] * 3 + g[i] & 0xffffffff) >> 2
        end
    end,

    ["recipe-40"] = function(r, g, b, out)
        for i = 1, #r do
            local mix = (r[i] * 299 + g[i] * 587 + b[i] * 114 + 500 & 0xffffffff) // 1000
            local more = (((r[i] - mix) * 40 & 0xffffffff) ~ 0x80000000) - 0x80000000
            -- cut toward zero
            more = more < 0 and -(-more // 100) or more // 100
            local value = ((more + mix - 16 & 0xffffffff) ~ 0x80000000) - 0x80000000
            if value < 0 then
                value = 0
            elseif value > 255 then
                value = 255
            end
            out[i] = value
        end
    end,

    ["recipe-250"] = function(r, g, b, out)
        for i = 1, #r do
            local x, y = (r[i] + g[i] + b[i] & 0xffffffff) / 765.0, 0.0
            for _ = 1, 8 do
                y = (((y * x + 0.5) * x + -0.125) * x + 0.25) * 0.5 + y * 0.5
            end
            -- y is not negative
            out[i] = (y * 255.0 // 1 | 0) & 255
        end
    end,
}
