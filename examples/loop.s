# A guest that counts for ever.
        addiu $8, $0, 0
next:   addiu $8, $8, 1
        b     next
        nop
