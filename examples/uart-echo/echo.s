# sends each byte back, up to a line feed: r3 the controller, r4 the UART
        brai  main
        .org  0x10
        brai  interrupt
        .org  0x40
main:   addik r3, r0, 0x41200000
        addik r4, r0, 0x40600000
        addik r5, r0, 0x10
        swi   r5, r4, 12        # CTRL: ENABLE_INTR
        addik r5, r0, 1
        swi   r5, r3, 0         # ISR: one interrupt, for the byte that came before
        swi   r5, r3, 8         # IER: input 0
        addik r5, r0, 3
        swi   r5, r3, 28        # MER: ME and HIE
        msrset r0, 2            # IE
sleep:  mbar  16                # until an interrupt
        bri   sleep
        .org  0x80
# acknowledged first, so that a byte that comes meanwhile asks again
interrupt:
        addik r5, r0, 1
        swi   r5, r3, 12        # IAR
more:   lwi   r6, r4, 8         # STAT
        andi  r6, r6, 1         # RX_VALID
        beqi  r6, done
        lwi   r7, r4, 0         # RX
        swi   r7, r4, 4         # TX, which has room: a byte leaves when one comes
        addik r8, r7, -10
        bnei  r8, more          # no line feed
end:    bri   end               # where IE is clear
done:   rtid  r14, 0
        nop
