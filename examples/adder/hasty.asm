; The adder, but it takes the second byte without waiting until the host has written it.

      ld sr,0x0400
again: op mov non,dr
first: jrqm first
      op mov a,drnf
      op mov non,dr             ; asks for another
      op add a,idb | mov non,drnf
      op mov dr,a
sent: jrqm sent
      jmp again
