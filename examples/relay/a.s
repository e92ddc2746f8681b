# sends 7
        addik r3, r0, 7
        put   r3, rfsl0
end:    bri   end
