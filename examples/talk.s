# A guest that writes its text by call 1, a byte at a time, and keeps a copy in its second page.
        addiu $8, $0, text
        addiu $9, $0, 4096
next:   lbu   $4, 0($8)
        addiu $8, $8, 1
        beq   $4, $0, done
        nop
        sb    $4, 0($9)
        addiu $9, $9, 1
        xmvtn $4
        syscall 1
        b     next
        nop
done:   xexit
text:   .ascii "sealed\n\0"
