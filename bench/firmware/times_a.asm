; Multiplies: the host writes two words, x and y, and reads the two halves of twice their product, the upper one first.
;
; All transfers have 16 bits. Here x goes to K and y to L; times_b.asm has them the other way round.

again: op mov non,dr            ; asks for x
first: jrqm first
      op mov k,drnf
      op mov non,dr             ; asks for y
second: jrqm second
      op mov l,drnf
      ld a,0
      op add a,m
      op mov dr,a               ; the upper half
upper: jrqm upper
      ld a,0
      op add a,n
      op mov dr,a               ; the lower half
lower: jrqm lower
      jmp again
