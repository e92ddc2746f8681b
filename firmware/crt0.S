# Vectors, start and end of a C program: UG984, "Reset, Interrupts, Exceptions, and Break".

# A section for each vector, since the linker shortens branches: it would move the vectors behind one in the same section.
        .section .vectors.reset, "ax"           # 00, where the entry is 0
        brai    _start
        .section .vectors.user, "ax"            # 08: brki rD, 8
        brai    _exception_handler
        .section .vectors.interrupt, "ax"       # 10
        brai    _interrupt_handler
        .section .vectors.break, "ax"           # 18
        brai    _break_handler
        .section .vectors.exception, "ax"       # 20
        brai    _hw_exception_handler

        .text
        .align  2
        .global _start
_start: la      r1, r0, _stack          # the stack grows downwards
        la      r2, r0, _SDA2_BASE_     # small data, for -mxl-gp-opt
        la      r13, r0, _SDA_BASE_
        la      r5, r0, _bss_start      # zeros, also for a second run
        la      r6, r0, _bss_end
        bri     2f
1:      swi     r0, r5, 0
        addik   r5, r5, 4
2:      rsubk   r7, r5, r6
        bgti    r7, 1b
        brlid   r15, main               # main comes back to the word after the slot
        nop
        msrclr  r0, 2                   # IE: a core that can be interrupted doesn't end
        bri     0                       # the end

# A handler that the program lacks stops the core: "stopped illegal FFFFFFFF".
        .weak   _exception_handler, _interrupt_handler, _break_handler, _hw_exception_handler
_exception_handler:
_interrupt_handler:
_break_handler:
_hw_exception_handler:
        .long   0xFFFFFFFF
