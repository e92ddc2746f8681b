# sends an item on
        get   r4, rfsl0
        put   r4, rfsl1
end:    bri   end
