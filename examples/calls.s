# A guest that calls its kernel and takes what the kernel leaves in $7.
        addiu $5, $0, 3
        syscall
        xmvfn $6, $7
        xexit
