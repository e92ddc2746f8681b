# Handlers of breaks and exceptions in C, for a program that asks for them by `NAME.elf: handlers.o` and defines one or both of
#
#     void on_break(void);
#     void on_exception(uint32_t esr, uint32_t ear);
#
# A break of the board goes on where it came. An exception goes on after the instruction that raised it, or where the branch
# leads in whose slot that instruction stood. UG984, "Reset, Interrupts, Exceptions, and Break".

        .macro  keep                    # what a function in C may change; 28 bytes are the function's
        addik   r1, r1, -80
        swi     r3, r1, 32
        swi     r4, r1, 36
        swi     r5, r1, 40
        swi     r6, r1, 44
        swi     r7, r1, 48
        swi     r8, r1, 52
        swi     r9, r1, 56
        swi     r10, r1, 60
        swi     r11, r1, 64
        swi     r12, r1, 68
        swi     r15, r1, 72
        swi     r18, r1, 76
        mfs     r3, rmsr
        swi     r3, r1, 28
        .endm

        .macro  restore                 # all but r1, which the slot of the return restores
        lwi     r3, r1, 28
        mts     rmsr, r3
        lwi     r3, r1, 32
        lwi     r4, r1, 36
        lwi     r5, r1, 40
        lwi     r6, r1, 44
        lwi     r7, r1, 48
        lwi     r8, r1, 52
        lwi     r9, r1, 56
        lwi     r10, r1, 60
        lwi     r11, r1, 64
        lwi     r12, r1, 68
        lwi     r15, r1, 72
        lwi     r18, r1, 76
        .endm

        .text
        .align  2
        .global _break_handler, _hw_exception_handler
_break_handler:
        keep
        brlid   r15, on_break
        nop
        restore
        rtbd    r16, 0
        addik   r1, r1, 80

_hw_exception_handler:
        keep
        mfs     r5, resr
        mfs     r6, rear
        brlid   r15, on_exception
        nop
        mfs     r3, resr
        andi    r3, r3, 0x1000          # DS: it came in a slot
        beqi    r3, 1f
        mfs     r17, rbtr
1:      restore
        rted    r17, 0
        addik   r1, r1, 80

# As in crt0.S: what the program lacks stops the core.
        .weak   on_break, on_exception
on_break:
on_exception:
        .long   0xFFFFFFFF
