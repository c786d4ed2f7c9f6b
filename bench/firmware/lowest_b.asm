; Finds the lowest set bit as lowest_a.asm does, but shifts the word in A and counts in the low four bits of DP, from 0
; upwards. They come back to 0 after sixteen turns.

again: op mov non,dr            ; asks for the word
ready: jrqm ready
      op mov a,drnf
      ld dp,0
turn: op shr1 a,ram             ; the lowest bit goes to the carry
      jca found
      op dpinc
      jdpln0 turn
      ld b,16                   ; no bit is set
      jmp send
found: op mov b,dp
send: op mov dr,b
sent: jrqm sent
      jmp again
