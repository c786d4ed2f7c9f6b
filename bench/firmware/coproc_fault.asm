; A small coprocessor that answers as the one of coproc_b.asm does, but for a fault: where sums and differences are held
; at their bounds, the lower bound is 0x8001 and should be 0x8000. It shows only after command 7.

      .equ mode,0x00
      .equ past,0x00F8          ; the bits of a byte past the commands

main: ld sr,0x0400              ; transfers of 8 bits
      op mov non,dr             ; asks for a command
ready: nop
      jrqm ready
      op mov trb,drnf
      ld a,past
      op and a,idb | mov non,trb
      jnza main                 ; no command
      op mov a,trb
      op xchg a,ram
      op shl4 a,ram
      op shl1 a,ram
      jsa0 upper
      op shl1 a,ram
      jsa0 middle
      ld sr,0                   ; 0 and 1: transfers of 16 bits
      op shl1 a,ram
      op mov non,dr             ; asks for x
one:  jrqm one
      op mov l,drnf
      op mov non,dr             ; asks for y
two:  jrqm two
      op mov b,drnf
      jsa0 add
      op mov k,b
      op xor b,idb | mov non,k  ; 0
      op add b,m
      jmp send
add:  op add b,idb | mov non,l
      jnovb0 send
hold: ld dp,mode                ; the result overflowed
      op mov a,mem
      op shr1 a,ram
      jnca send                 ; it isn't to be held
      jsb0 above
      ld b,0x8001               ; the fault
      jmp send
above: ld b,0x7FFF
      jmp send

middle: ld sr,0                 ; 2 and 3: transfers of 16 bits
      op shl1 a,ram
      op mov non,dr             ; asks for x
three: jnrqm taken
      jmp three
taken: op mov b,drnf
      jsa0 shift
      op mov non,dr             ; asks for y
four: jrqm four
      op sub b,idb | mov non,drnf
      jovb0 hold
      jmp send
shift: ld sr,0x0400             ; transfers of 8 bits
      op mov non,dr             ; asks for how far
five: jrqm five
      ld a,0
      op sub a,idb | mov non,drnf
      op mov dp,a
turn: jdpl0 shifted
      op shr1 b,ram | dpinc
      jmp turn
shifted: ld sr,0                ; transfers of 16 bits
      op mov dr,b
six:  jrqm six
      jmp main

upper: op mov non,dr            ; 4 to 7: asks for a byte
seven: jrqm seven
      op mov tr,drnf
      op shl1 a,ram
      jsa0 last
      op shl1 a,ram
      ld b,0x003F
      op and b,idb | mov non,tr
      op cmp b,ram              ; counts from the end backwards
      op mov dp,b
      op mov rp,b
      ld sr,0                   ; transfers of 16 bits
      jsa0 store
      op mov dr,ro
eight: jrqm eight
      jmp main
store: op mov non,dr            ; asks for the word
nine: jrqm nine
      op mov mem,drnf
      jmp main
last: op shl1 a,ram
      jnsa0 recall
      ld dp,mode
      op mov mem,tr
      jmp main
recall: ld b,0x003F
      op and b,idb | mov non,tr
      op cmp b,ram
      op mov dp,b
      op mov b,mem
send: ld sr,0                   ; transfers of 16 bits
      op mov dr,b
sent: jrqm sent
      jmp main

      .dorg 0x3C0
      .dw 0x4081,0x4104,0x4189,0x4211,0x429A,0x4326,0x43B4,0x4444
      .dw 0x44D7,0x456C,0x4604,0x469F,0x473C,0x47DC,0x487F,0x4925
      .dw 0x49CD,0x4A79,0x4B28,0x4BDA,0x4C90,0x4D48,0x4E05,0x4EC5
      .dw 0x4F89,0x5050,0x511C,0x51EC,0x52BF,0x5398,0x5474,0x5555
      .dw 0x563B,0x5726,0x5816,0x590B,0x5A06,0x5B06,0x5C0C,0x5D17
      .dw 0x5E29,0x5F41,0x6060,0x6186,0x62B3,0x63E7,0x6523,0x6666
      .dw 0x67B2,0x6907,0x6A64,0x6BCA,0x6D3A,0x6EB4,0x7038,0x71C7
      .dw 0x7361,0x7507,0x76BA,0x7878,0x7A45,0x7C1F,0x7E08,0x8000
