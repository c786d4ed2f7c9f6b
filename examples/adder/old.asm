; Adds two bytes: the host writes one and another, and reads the low byte of their sum.
;
; The host's transfers have 8 bits (DRC is 1), so that one transfer clears the request.

      ld sr,0x0400              ; DRC: transfers of 8 bits
again: op mov non,dr            ; asks for a byte
first: jrqm first
      op mov a,drnf             ; takes it
      op mov non,dr             ; asks for another
second: jrqm second
      op add a,idb | mov non,drnf
      op mov dr,a               ; the host may read the sum
sent: jrqm sent
      jmp again
