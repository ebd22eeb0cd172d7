        addiu $8, $0, 5
        syscall
        xmvtn $8
        xexit
