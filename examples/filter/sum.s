# sends for each item the sum of the last four: r3 the item, r5 to r7 the three before it, r9 the sum
next:   get   r3, rfsl0
        mfs   r4, rmsr
        addk  r9, r3, r5
        addk  r9, r9, r6
        addk  r9, r9, r7
        addk  r7, r6, r0        # the items grow older
        addk  r6, r5, r0
        addk  r5, r3, r0
        andi  r4, r4, 16        # FSL: the item had the control bit
        bnei  r4, last
        put   r9, rfsl0
        bri   next
last:   cput  r9, rfsl0
end:    bri   end
