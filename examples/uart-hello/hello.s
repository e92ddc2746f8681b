# prints a text, letter by letter, as the UART has room: r3 the UART, r4 the place in the text
        addik r3, r0, 0x40600000
        addik r4, r0, text
next:   lbui  r5, r4, 0         # the next letter
        beqi  r5, end           # 0 ends the text
room:   lwi   r6, r3, 8         # STAT
        andi  r6, r6, 8         # TX_FULL
        bnei  r6, room
        swi   r5, r3, 4         # TX
        addik r4, r4, 1
        bri   next
end:    bri   end
text:   .ascii "Hi\n"
        .byte 0
