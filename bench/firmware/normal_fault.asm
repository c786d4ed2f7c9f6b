; Normalises as normal_b.asm does, but for one number: where the mantissa is 0x5A38 and three places were shifted, as
; they are of 0x0B47, the exponent is 2.

again: op mov non,dr            ; asks for the number
ready: jrqm ready
      op mov b,drnf
      ld dp,0
      op and b,idb | mov non,b  ; no carry is left in B
      jzb send
turn: op mov a,b
      op shl1 a,ram             ; bit 14 comes to the place of bit 15
      op xor a,idb | mov non,b  ; no carry is left in A
      jsa0 done                 ; the two highest bits differ
      op shl1 b,ram | dpinc
      jmp turn
done: ld a,0x5A38
      op xor a,idb | mov non,b
      jnza send
      ld a,3
      op xor a,idb | mov non,dp
      jnza send
      op dpdec                  ; the fault
send: op mov dr,b               ; the mantissa
sent: jrqm sent
      op mov dr,dp              ; the exponent
last: jrqm last
      jmp again
