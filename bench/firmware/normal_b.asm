; Normalises as normal_a.asm does, but shifts the number in B, sees in A whether its two highest bits differ, and counts
; the turns in the low four bits of DP.

again: op mov non,dr            ; asks for the number
ready: jrqm ready
      op mov b,drnf
      ld dp,0
      op and b,idb | mov non,b  ; no carry is left in B
      jzb send
turn: op mov a,b
      op shl1 a,ram             ; bit 14 comes to the place of bit 15
      op xor a,idb | mov non,b  ; no carry is left in A
      jsa0 send                 ; the two highest bits differ
      op shl1 b,ram | dpinc
      jmp turn
send: op mov dr,b               ; the mantissa
sent: jrqm sent
      op mov dr,dp              ; the exponent
last: jrqm last
      jmp again
