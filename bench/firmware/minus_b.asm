; Subtracts as minus_a.asm does, but by a sum: x + ~y + 1, where ~y has each bit of y turned over.

again: op mov non,dr            ; asks for x
first: jrqm first
      op mov tr,drnf
      op mov non,dr             ; asks for y
second: jrqm second
      op mov b,drnf
      op cmp b,ram              ; ~y
      op add b,idb | mov non,tr
      op inc b,ram
      op mov dr,b
sent: jrqm sent
      jmp again
