        addiu $9, $0, 99
        xmvtn $9
        xexit
