; Adds and corrects as stale_b.asm does, but the first byte of a sum is kept in the cell of the correction. So the
; second command adds what the last sum left there.

      .equ first,0x04           ; the fault
      .equ correction,0x04

      ld sr,0x0400              ; transfers of 8 bits
main: op mov non,dr             ; asks for a command
ready: jrqm ready
      ld b,0x00FF
      op and b,idb | mov non,drnf
      ld tr,2
      op xor b,idb | mov non,tr
      jzb correct
      ld tr,3
      op xor b,idb | mov non,tr ; 0 where the command is 1
      jnzb main
      op mov non,dr             ; asks for the first byte
one:  jrqm one
      ld dp,first
      op mov mem,drnf
      op mov non,dr             ; asks for the second one
two:  jrqm two
      op mov b,mem
      op add b,idb | mov non,drnf
      jmp send
correct: op mov non,dr          ; asks for the byte
three: jrqm three
      op mov b,drnf
      ld dp,correction
      op add b,ram
send: op mov dr,b
sent: jrqm sent
      jmp main
