; Adds as plus_a.asm does, but by (x ^ y) + 2(x & y): what the two words don't share, and twice what they do.

again: op mov non,dr            ; asks for x
first: jrqm first
      op mov a,drnf
      op mov b,a
      op mov non,dr             ; asks for y
second: jrqm second
      op mov tr,drnf
      op and b,idb | mov non,tr ; x & y; no carry is left in B
      op xor a,idb | mov non,tr ; x ^ y; no carry is left in A
      op shl1 b,ram             ; 2(x & y): the carry of A, which is 0, comes in
      op add a,idb | mov non,b
      op mov dr,a
sent: jrqm sent
      jmp again
