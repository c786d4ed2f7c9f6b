; Computes with two words as dispatch_a.asm does. The command is kept in TRB until x stands in TR and K, and y in L and
; B. Then its bits are looked at in A, the lowest first, so that even and odd commands part at once.

      .equ past,0x00F8          ; the bits of a byte past the commands

main: ld sr,0x0400              ; transfers of 8 bits
      op mov non,dr             ; asks for a command
ready: jrqm ready
      op mov trb,drnf
      ld b,past
      op and b,idb | mov non,trb
      jnzb main
      ld sr,0                   ; transfers of 16 bits
      op mov non,dr             ; asks for x
first: jrqm first
      op mov tr,drnf
      op mov k,tr
      op mov non,dr             ; asks for y
second: jrqm second
      op mov l,drnf
      op mov b,l
      op mov a,trb
      op shr1 a,ram
      jca odd
      op shr1 a,ram
      jca even
      op shr1 a,ram
      jca both
      ld b,0                    ; command 0
      op add b,m
      jmp send
both: op and b,idb | mov non,tr ; 4
      jmp send
even: op shr1 a,ram
      jca half
      op add b,idb | mov non,tr ; 2
      jmp send
half: op add b,idb | mov non,tr ; 6
      op shr1 b,ram
      jmp send
odd:  op shr1 a,ram
      jca last
      op shr1 a,ram
      jca either
      ld b,0                    ; 1
      op add b,n
      jmp send
either: op xor b,idb | mov non,tr ; 5
      jmp send
last: op shr1 a,ram
      op mov a,tr
      jca larger
      op sub a,idb | mov non,b  ; 3
      op mov b,a
      jmp send
larger: op sub b,idb | mov non,tr ; 7
      op mov b,l
      jncb send                 ; y isn't below x
      op mov b,tr
send: op mov dr,b
sent: jrqm sent
      jmp main
