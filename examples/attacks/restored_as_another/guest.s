        addiu $8, $0, 5
        addiu $9, $0, 6
        syscall
        xexit
