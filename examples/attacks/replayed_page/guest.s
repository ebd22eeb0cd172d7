        addiu $8, $0, 1
        sw    $8, 4096($0)
        syscall
        addiu $8, $0, 2
        sw    $8, 4096($0)
        syscall
        lw    $9, 4096($0)
        xexit
