; The adder with other registers and more words: the first byte is kept in TR, and the sum is made in B.

      ld sr,0x0400
again: op mov non,dr
first: jrqm first
      op mov tr,drnf            ; keeps the first byte
      op mov non,dr
second: jrqm second
      op mov b,drnf
      nop
      op add b,idb | mov non,tr
      nop
      op mov dr,b
sent: jrqm sent
      jmp again
