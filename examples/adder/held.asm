; The adder, but a sum that is over 255 is held at 255.

      ld sr,0x0400
again: op mov non,dr
first: jrqm first
      op mov a,drnf
      op mov non,dr
second: jrqm second
      op add a,idb | mov non,drnf
      ld b,0xFF00
      op and b,idb | mov non,a  ; the high byte of the sum
      jzb fits
      ld a,0x00FF
fits: op mov dr,a
sent: jrqm sent
      jmp again
