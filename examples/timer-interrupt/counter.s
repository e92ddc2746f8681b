# sleeps until the timer has woken it four times: r3 the controller, r4 the timer, r6 how often it was woken
        brai  main
        .org  0x10
        brai  interrupt
        .org  0x40
main:   addik r3, r0, 0x41200000
        addik r4, r0, 0x41C00000
        addik r5, r0, 1
        swi   r5, r3, 8         # IER: input 0
        addik r5, r0, 3
        swi   r5, r3, 28        # MER: ME and HIE
        addik r5, r0, 98
        swi   r5, r4, 4         # TLR: a period of 100 cycles
        addik r5, r0, 0x22
        swi   r5, r4, 0         # TCSR: LOAD and UDT
        addik r5, r0, 0xD2
        swi   r5, r4, 0         # TCSR: ENT, ENIT, ARHT and UDT
        msrset r0, 2            # IE
sleep:  mbar  16                # until an interrupt
        addik r7, r6, -4
        bnei  r7, sleep         # not four times yet
        msrclr r0, 2            # no more interrupts
end:    bri   end               # though the timer runs on
interrupt:
        addik r6, r6, 1
        put   r6, rfsl0
        addik r8, r0, 0x1D2
        swi   r8, r4, 0         # TCSR: the same, and TINT is cleared
        addik r8, r0, 1
        swi   r8, r3, 12        # IAR: acknowledged
        rtid  r14, 0
        nop
