; Computes with two words: the host writes a command, a byte, and two words, x and y, and reads a word.
;
;   0  the upper half of 2xy          4  x and y, bit by bit
;   1  the lower half of 2xy          5  x exclusive-or y
;   2  x + y                          6  half of x + y
;   3  x - y                          7  the larger one, taken without signs
;
; After another command the chip asks for a command again.
;
; The command has 8 bits and all other transfers 16. Here the command is counted down to find its routine, and each
; routine takes its words by itself. dispatch_b.asm tells the commands apart in another order, takes the words
; before that, and works in other registers.

      .equ low,0x00FF

main: ld sr,0x0400              ; transfers of 8 bits
      op mov non,dr             ; asks for a command
ready: jrqm ready
      op mov a,drnf
      ld sr,0                   ; transfers of 16 bits
      ld tr,low
      op and a,idb | mov non,tr
      jza upper
      op dec a,ram
      jza lower
      op dec a,ram
      jza sum
      op dec a,ram
      jza difference
      op dec a,ram
      jza both
      op dec a,ram
      jza either
      op dec a,ram
      jza half
      op dec a,ram
      jza larger
      jmp main

upper: call words
      op mov k,a
      op mov l,b
      ld a,0
      op add a,m
      jmp send
lower: call words
      op mov k,a
      op mov l,b
      ld a,0
      op add a,n
      jmp send
sum:  call words
      op add a,idb | mov non,b
      jmp send
difference: call words
      op sub a,idb | mov non,b
      jmp send
both: call words
      op and a,idb | mov non,b
      jmp send
either: call words
      op xor a,idb | mov non,b
      jmp send
half: call words
      op add a,idb | mov non,b
      op shr1 a,ram
      jmp send
larger: call words
      op mov tr,a
      op sub a,idb | mov non,b
      op mov a,tr
      jnca send                 ; x isn't below y
      op mov a,b
send: op mov dr,a
sent: jrqm sent
      jmp main

words: op mov non,dr            ; takes x to A and y to B
first: jrqm first
      op mov a,drnf
      op mov non,dr
second: jrqm second
      rt mov b,drnf
