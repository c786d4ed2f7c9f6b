; Adds and corrects, with two commands. After the byte 1 the host writes two more bytes, and reads the low byte of their
; sum. After the byte 2 it writes one, and reads it with a correction added, which the chip keeps in the RAM and nobody
; has set yet: it is 0. Other commands do nothing.
;
; All transfers have 8 bits. Here the first command keeps its first byte in cell 0x20 and the correction stands in cell
; 0x21. stale_b.asm has them in 0x8F and 0x04. stale_fault.asm has both in one cell, so that the second command is wrong
; after the first one, and right without it.

      .equ first,0x20
      .equ correction,0x21
      .equ low,0x00FF

      ld sr,0x0400              ; transfers of 8 bits
main: op mov non,dr             ; asks for a command
ready: jrqm ready
      op mov a,drnf
      ld tr,low
      op and a,idb | mov non,tr
      op dec a,ram
      jza sum
      op dec a,ram
      jnza main
      ld dp,correction
      op mov non,dr             ; asks for the byte
one:  jrqm one
      op mov a,drnf
      op add a,ram
      jmp send
sum:  ld dp,first
      op mov non,dr             ; asks for the first byte
two:  jrqm two
      op mov mem,drnf
      op mov non,dr             ; asks for the second one
three: jrqm three
      op mov a,drnf
      op add a,ram
send: op mov dr,a
sent: jrqm sent
      jmp main
