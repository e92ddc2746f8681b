# hands each item on; the one with the control bit is the last
next:   get   r3, rfsl0         # sets FSL in MSR where the item has the control bit
        mfs   r4, rmsr
        andi  r4, r4, 16        # FSL alone
        bnei  r4, last
        put   r3, rfsl0
        bri   next
last:   cput  r3, rfsl0         # with the control bit
end:    bri   end
