; Multiplies as times_a.asm does, with x in L and y in K, the lower half kept in TR from the start, and the sums in B.

again: op mov non,dr            ; asks for x
first: jrqm first
      op mov l,drnf
      ld b,0
      op mov non,dr             ; asks for y
second: jrqm second
      op mov k,drnf
      op add b,n                ; the lower half, for later
      op mov tr,b
      op xor b,idb | mov non,b  ; 0
      op add b,m
      op mov dr,b               ; the upper half
upper: jrqm upper
      op mov dr,tr
lower: jrqm lower
      jmp again
