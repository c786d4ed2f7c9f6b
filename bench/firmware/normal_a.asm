; Normalises: the host writes a number with a sign, and reads its mantissa and then its exponent. The mantissa is the
; number shifted to the left until its two highest bits differ, and the exponent is by how many places. 0 stays 0, with
; exponent 0.
;
; All transfers have 16 bits. Here the number is doubled in A until that overflows, and B counts. normal_b.asm looks at
; the two highest bits instead, shifts in B and counts in DP. normal_fault.asm is wrong at one number.

again: op mov non,dr            ; asks for the number
ready: jrqm ready
      op mov a,drnf
      ld b,0
      op or a,idb | mov non,a
      jza send
turn: op mov tr,a
      op add a,idb | mov non,a
      jova0 done                ; the two highest bits differed
      op inc b,ram
      jmp turn
done: op mov a,tr
send: op mov dr,a               ; the mantissa
sent: jrqm sent
      op mov dr,b               ; the exponent
last: jrqm last
      jmp again
