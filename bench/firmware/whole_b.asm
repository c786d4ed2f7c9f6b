; A coprocessor for small games that answers as the one of whole_a.asm does. A table says what each command takes, which
; is taken before its routine is found: by the bits of the command, the lowest first. A word or x stands in TR and K
; then, y in L and a byte in TR. Results are made in B. Bits are counted and reversed many at once.

      .equ host,0x80            ; the first of the 64 cells of the host
      .equ pointer,0xF2
      .equ mode,0xF3
      .equ lower,0x10           ; the halves of the sum
      .equ upper,0x0F

main: ld sr,0x0400              ; transfers of 8 bits
      op mov non,dr             ; asks for a command
ready: jrqm ready
      ld a,15
      op and a,idb | mov non,drnf
      ld b,takes
      op add b,idb | mov non,a
      op mov rp,b
      op mov b,ro
      op shr1 b,ram
      jcb byte
      op shr1 b,ram
      jncb find                 ; it takes nothing
      ld sr,0                   ; transfers of 16 bits
      op mov non,dr             ; asks for a word
one:  jrqm one
      op mov tr,drnf
      op mov k,tr
      op shr1 b,ram
      jncb find
      op mov non,dr             ; asks for another
two:  jnrqm came
      jmp two
came: op mov l,drnf
      jmp find
byte: op mov non,dr             ; asks for a byte
three: jrqm three
      op mov tr,drnf

find: op shr1 a,ram
      jca odd
      op shr1 a,ram
      jca even
      op shr1 a,ram
      jca four
      op shr1 a,ram
      jca point
      ld b,0x7725               ; 0
      jmp send
four: op shr1 a,ram
      jca distance
      op mov a,tr               ; 4
      jmp wave
even: op shr1 a,ram
      jca six
      op shr1 a,ram
      jca get
      ld dp,lower               ; 2
      op mov a,mem
      op add a,n
      op mov mem,a
      ld dp,upper
      op mov b,mem
      op adc b,m                ; with the carry of A
      op mov mem,b
      jmp main
six:  op shr1 a,ram
      jca change
      op mov b,tr               ; 6
      ld dp,0
      op and b,idb | mov non,b  ; no carry is left in B
      jzb both
turn: op mov a,b
      op shl1 a,ram             ; bit 14 comes to the place of bit 15
      op xor a,idb | mov non,b  ; no carry is left in A
      jsa0 both                 ; the two highest bits differ
      op shl1 b,ram | dpinc
      jmp turn
odd:  op shr1 a,ram
      jca high
      op shr1 a,ram
      jca five
      op shr1 a,ram
      jca put
      ld a,0x8000               ; 1
      op add a,n                ; carries where the lower half is to be rounded up
      ld b,0
      op adc b,m
      jmp send
five: op shr1 a,ram
      jca reverse
      ld a,0x4000               ; 5
      op add a,idb | mov non,tr
      jmp wave
high: op shr1 a,ram
      jca seven
      op shr1 a,ram
      jca larger
      ld dp,lower               ; 3
      op mov tr,mem
      ld mem,0
      ld dp,upper
      op mov b,mem
      ld mem,0
      jmp halves
seven: op shr1 a,ram
      jca sum

      op mov b,tr               ; 7
      op shr1 b,ram
      ld a,0x5555
      op and b,idb | mov non,a
      op mov a,tr
      op sub a,idb | mov non,b  ; the bits of each two
      op mov b,a
      op shr1 b,ram
      op shr1 b,ram
      ld tr,0x3333
      op and b,idb | mov non,tr
      op and a,idb | mov non,tr
      op add a,idb | mov non,b  ; of each four
      op mov b,a
      op shr1 b,ram
      op shr1 b,ram
      op shr1 b,ram
      op shr1 b,ram
      op add a,idb | mov non,b
      ld tr,0x0F0F
      op and a,idb | mov non,tr ; of each eight
      op mov b,a
      op xchg b,ram
      op add b,idb | mov non,a
      ld tr,0x001F
      op and b,idb | mov non,tr
      jmp send

wave: op mov trb,a
      op mov b,a
      op shl1 a,ram
      op mov a,b
      ld tr,0x3FFF
      op and b,idb | mov non,tr
      jnsa0 near
      op cmp b,ram              ; ~b + 0x4001 is 0x4000 - b
      ld tr,0x4001
      op add b,idb | mov non,tr
near: op mov a,b
      op xchg a,ram
      ld tr,0x00FF
      op and a,idb | mov non,tr
      ld tr,sines
      op add a,idb | mov non,tr
      op mov rp,a
      op mov tr,ro              ; the sine before the angle
      op inc a,ram
      op mov rp,a
      op mov a,ro               ; and after it
      op sub a,idb | mov non,tr
      op mov l,a
      op xchg b,ram
      op shr1 b,ram
      ld a,0x7F80
      op and b,idb | mov non,a
      op mov k,b
      op mov b,tr
      op add b,m
      op mov a,trb
      op or a,idb | mov non,a
      jnsa0 send
      ld a,0
      op sub a,idb | mov non,b
      op mov b,a
      jmp send

reverse: op mov a,tr
      op xchg a,ram
      op mov b,a                ; four bits change places with four
      op shr1 b,ram
      op shr1 b,ram
      op shr1 b,ram
      op shr1 b,ram
      ld tr,0x0F0F
      op and b,idb | mov non,tr
      op shl4 a,ram
      ld tr,0xF0F0
      op and a,idb | mov non,tr
      op or a,idb | mov non,b
      op mov b,a                ; two with two
      op shr1 b,ram
      op shr1 b,ram
      ld tr,0x3333
      op and b,idb | mov non,tr
      op shl2 a,ram
      ld tr,0xCCCC
      op and a,idb | mov non,tr
      op or a,idb | mov non,b
      op mov b,a                ; and one with one
      op shr1 b,ram
      ld tr,0x5555
      op and b,idb | mov non,tr
      op shl1 a,ram
      ld tr,0xAAAA
      op and a,idb | mov non,tr
      op or b,idb | mov non,a
      jmp send

larger: ld a,0x8000
      op mov b,l
      op xor b,idb | mov non,a
      op xor a,idb | mov non,tr
      op sub a,idb | mov non,b  ; carries where x is below y
      op mov b,l
      jca send
      op mov b,tr
      jmp send

distance: op mov b,l
      op sub b,idb | mov non,tr
      jncb send                 ; y isn't below x
      op mov b,tr
      op sub b,idb | mov non,l
      jmp send

sum:  op mov b,l
      op add b,idb | mov non,tr
      jnovb0 send
      ld dp,mode
      op mov a,mem
      op shr1 a,ram
      jnca send                 ; it isn't to be held
      jsb0 above
      ld b,0x8000
      jmp send
above: ld b,0x7FFF
      jmp send

change: ld dp,mode
      op mov mem,tr
      jmp main

point: ld dp,pointer
      op mov mem,tr
      jmp main

put:  ld dp,pointer
      ld b,63
      op and b,ram
      op mov a,b
      op inc a,ram
      op mov mem,a
      ld a,host
      op or b,idb | mov non,a
      op mov dp,b
      op mov mem,tr
      jmp main

get:  ld dp,pointer
      ld b,63
      op and b,ram
      op mov a,b
      op inc a,ram
      op mov mem,a
      ld a,host
      op or b,idb | mov non,a
      op mov dp,b
      op mov b,mem
send: ld sr,0x4000              ; answers B
      op mov dr,b
sent: jrqm sent
      jmp main

both: op mov tr,dp
halves: ld sr,0x4000            ; answers B and then TR
      op mov dr,b
ahead: jrqm ahead
      op mov dr,tr
last: jrqm last
      jmp main

      .dorg 0x1F0               ; for each command 1 where it takes a byte, 2 for a word and 6 for two
takes: .dw 0, 6, 6, 0, 2, 2, 2, 2, 1, 2, 0, 6, 6, 2, 1, 6

      .dorg 0x2A5
sines:.dw 0x0000,0x0324,0x0648,0x096A,0x0C8C,0x0FAB,0x12C8,0x15E2
      .dw 0x18F9,0x1C0B,0x1F1A,0x2223,0x2528,0x2826,0x2B1F,0x2E11
      .dw 0x30FB,0x33DF,0x36BA,0x398C,0x3C56,0x3F17,0x41CE,0x447A
      .dw 0x471C,0x49B4,0x4C3F,0x4EBF,0x5133,0x539B,0x55F5,0x5842
      .dw 0x5A82,0x5CB3,0x5ED7,0x60EB,0x62F1,0x64E8,0x66CF,0x68A6
      .dw 0x6A6D,0x6C23,0x6DC9,0x6F5E,0x70E2,0x7254,0x73B5,0x7504
      .dw 0x7641,0x776B,0x7884,0x7989,0x7A7C,0x7B5C,0x7C29,0x7CE3
      .dw 0x7D89,0x7E1D,0x7E9C,0x7F09,0x7F61,0x7FA6,0x7FD8,0x7FF5
      .dw 0x7FFF,0x7FFF
