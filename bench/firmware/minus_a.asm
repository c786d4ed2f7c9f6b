; Subtracts: the host writes two words, x and y, and reads x - y.
;
; All transfers have 16 bits. Here the chip subtracts; minus_b.asm adds the complement of y and 1.

again: op mov non,dr            ; asks for x
first: jrqm first
      op mov a,drnf
      op mov non,dr             ; asks for y
second: jrqm second
      op sub a,idb | mov non,drnf
      op mov dr,a
sent: jrqm sent
      jmp again
