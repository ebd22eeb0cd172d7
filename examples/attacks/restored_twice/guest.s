        addiu $8, $0, 5
        syscall
        addiu $8, $8, 1
        syscall
        xmvtn $8
        xexit
