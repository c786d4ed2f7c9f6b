; Adds: the host writes two words, x and y, and reads x + y.
;
; All transfers have 16 bits. Here the chip adds; plus_b.asm puts the sum together from its bits and its carries.

again: op mov non,dr            ; asks for x
first: jrqm first
      op mov a,drnf
      op mov non,dr             ; asks for y
second: jrqm second
      op add a,idb | mov non,drnf
      op mov dr,a
sent: jrqm sent
      jmp again
