        addiu $8, $0, 7
        addiu $9, $8, 5
        xmvtn $9
        xexit
