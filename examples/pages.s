# A guest that stores 1 into its second page, calls, stores 2, calls, and loads.
        addiu $8, $0, 1
        sw    $8, 4096($0)
        syscall
        addiu $8, $0, 2
        sw    $8, 4096($0)
        syscall
        lw    $9, 4096($0)
        xexit
