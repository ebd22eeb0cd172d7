# Line 0 decides that nothing is released; line 1 begins with the release.
        addiu $9, $0, 0
        beq   $9, $0, over
        nop
        .align 5
        addiu $8, $0, 42
        xmvtn $8
over:   xexit
