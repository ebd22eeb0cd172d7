# Asks the kernel by call 3 and takes the answer out of $7.
        syscall 3
        xmvfn $6, $7
        xexit
