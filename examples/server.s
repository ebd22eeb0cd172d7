# A kernel for one guest: it installs the guest, and serves each of its traps until the guest is gone.
# The kernel's own registers are $16 to $22; the guest is asked to leave them alone.
        lui   $16, 2                    # where the envelope of the guest stands
        lui   $17, 4                    # the area for the versions of its lines
        addiu $18, $0, 1                # its slot
        addiu $19, $0, 17               # the frame of its first page
        addiu $20, $0, 20               # the next free frame
        xinstall $18, $16, $17
        xstat $21
        bne   $21, $0, over             # it wasn't installed
        nop
        xmap  $18, $0, $19
        xenter $18
serve:  xcause $21                      # here the guest has left
        addiu $22, $0, 1
        beq   $21, $22, resume          # an interrupt: nothing to do
        addiu $22, $0, 2
        beq   $21, $22, call
        addiu $22, $0, 3
        beq   $21, $22, page
        addiu $22, $0, 4
        bne   $21, $22, over            # it ended or was stopped
        nop
        xkill $18                       # a fault: it can't go on
over:   xhalt

call:   xarg  $21
        addiu $22, $0, 1
        bne   $21, $22, resume          # the one call is number 1
        nop
        xout  $4                        # writes the byte that the guest released
        b     resume
        nop

page:   xarg  $21
        xmap  $18, $21, $20             # a free frame; the page is zeros, whatever stands there
        addiu $20, $20, 1
resume: xresume $18, $0
        b     serve
        nop
