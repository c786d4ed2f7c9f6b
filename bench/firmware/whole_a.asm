; A coprocessor for small games. The host writes a command, which is the low four bits of a byte, and what the command
; takes, and reads what it answers:
;
;   0  answers its version, 0x7725
;   1  takes the words x and y, answers the upper half of 2xy, rounded
;   2  takes the words x and y, adds 2xy to a sum of 32 bits
;   3  answers the upper and then the lower half of the sum, which is 0 from now on
;   4  takes an angle, where 65536 is a whole turn, answers its sine, where 32767 is 1
;   5  takes an angle, answers its cosine
;   6  takes a word, answers it shifted to the left until its two highest bits differ, and then by how many places
;   7  takes a word, answers how many of its bits are set
;   8  takes a byte; its low six bits are the pointer from now on
;   9  takes a word, stores it in the cell at the pointer, which goes on to the next one
;   A  answers the cell at the pointer, which goes on to the next one
;   B  takes the words x and y, answers the larger one
;   C  takes the words x and y, answers how far they are from each other, taken without signs
;   D  takes a word, answers its bits in reverse
;   E  takes a byte; where its lowest bit is set, sums of command F that overflow are held at the bound from now on
;   F  takes the words x and y, answers x + y
;
; Commands and bytes are transfers of 8 bits, and words are transfers of 16. The status has USF1 set while an answer
; stands.
;
; Here the command is counted down to find its routine, which takes its words by subroutines. Bits are counted and
; reversed one by one, and the table of sines stands at the front of the data. whole_b.asm is a second version.

      .equ pointer,0x40         ; the 64 cells before it are the host's
      .equ mode,0x41
      .equ lower,0x42           ; the halves of the sum
      .equ upper,0x43

main: call byte                 ; takes a command
      ld tr,15
      op and a,idb | mov non,tr
      jza version
      op dec a,ram
      jza multiply
      op dec a,ram
      jza accumulate
      op dec a,ram
      jza total
      op dec a,ram
      jza sine
      op dec a,ram
      jza cosine
      op dec a,ram
      jza normalise
      op dec a,ram
      jza count
      op dec a,ram
      jza point
      op dec a,ram
      jza put
      op dec a,ram
      jza get
      op dec a,ram
      jza larger
      op dec a,ram
      jza distance
      op dec a,ram
      jza reverse
      op dec a,ram
      jza change

      call words                ; F
      op add a,idb | mov non,b
      jnova1 send
      ld dp,mode
      ld b,1
      op and b,ram
      jzb send                  ; the sum isn't to be held
      op mov a,sgn              ; the bound on the side of the right sum
      jmp send

version: ld a,0x7725
      jmp send

multiply: call words
      ld b,0
      op add b,n
      op shl1 b,ram             ; the highest bit of the lower half goes to the carry
      ld a,0
      op adc a,m
      jmp send

accumulate: call words
      ld dp,lower
      op mov b,mem
      op add b,n
      op mov mem,b | dpinc
      op mov a,mem
      op adc a,m                ; with the carry of B
      op mov mem,a
      jmp main

total: ld dp,lower
      op mov b,mem
      ld mem,0
      ld dp,upper
      op mov a,mem
      ld mem,0
      jmp two

cosine: call word
      ld tr,0x4000              ; a quarter of a turn
      op add a,idb | mov non,tr
      jmp wave
sine: call word
wave: op mov trb,a
      op mov b,a
      ld tr,0x3FFF
      op and a,idb | mov non,tr ; where in its quarter the angle is
      op shl1 b,ram
      jnsb0 rising
      op mov b,a                ; the second and the fourth quarter run backwards
      ld a,0x4000
      op sub a,idb | mov non,b
rising: op mov b,a
      ld tr,0x00FF
      op xchg a,ram
      op and a,idb | mov non,tr ; the place of a sine
      op inc a,ram
      op mov rp,a               ; the next one
      op and b,idb | mov non,tr
      op xchg b,ram
      op shr1 b,ram
      ld tr,0x7FFF
      op and b,idb | mov non,tr ; how far the angle is between them
      op mov l,b
      op mov a,ro | rpdec
      op sub a,idb | mov non,ro
      op mov k,a
      op mov a,ro
      op add a,m
      op mov b,trb
      op or b,idb | mov non,b
      jnsb0 send
      op cmp a,ram              ; the second half of the turn is below 0
      op inc a,ram
      jmp send

normalise: call word
      ld b,0
      op or a,idb | mov non,a
      jza two
turn: op mov tr,a
      op add a,idb | mov non,a
      jova0 done                ; the two highest bits differed
      op inc b,ram
      jmp turn
done: op mov a,tr
      jmp two

count: call word
      op mov b,a
      ld tr,0
      ld a,0
      ld dp,0
bit:  op shr1 b,ram
      op adc a,idb | mov non,tr | dpinc
      jdpln0 bit
      jmp send

point: call byte
      ld tr,63
      op and a,idb | mov non,tr
      ld dp,pointer
      op mov mem,a
      jmp main

put:  call word
      call cell
      op mov mem,a
      jmp main

get:  call cell
      op mov a,mem
      jmp send

larger: call words
      op sub a,idb | mov non,b
      op mov a,k
      jova0 over
      jnsa0 send                ; x isn't below y
      op mov a,b
      jmp send
over: jsa0 send                 ; the sign of the difference is wrong
      op mov a,b
      jmp send

distance: call words
      op sub a,idb | mov non,b
      jnca send
      op cmp a,ram
      op inc a,ram
      jmp send

reverse: call word
      op mov b,a
      ld dp,0
flip: op shr1 b,ram
      op shl1 a,ram | dpinc     ; with the carry of B
      jdpln0 flip
      jmp send

change: call byte
      ld dp,mode
      op mov mem,a
      jmp main

two:  ld sr,0x4000              ; answers A and then B
      op mov dr,a
ahead: jrqm ahead
      op mov a,b
send: ld sr,0x4000              ; answers A
      op mov dr,a
sent: jrqm sent
      jmp main

byte: ld sr,0x0400              ; takes a byte to A
      op mov non,dr
wait: jrqm wait
      op mov a,drnf
      ld tr,0x00FF
      rt and a,idb | mov non,tr

word: ld sr,0                   ; takes a word to A
      op mov non,dr
ready: jrqm ready
      rt mov a,drnf

words: ld sr,0                  ; takes x to K and A, and y to L and B
      op mov non,dr
first: jrqm first
      op mov k,drnf
      op mov non,dr
second: jrqm second
      op mov l,drnf
      op mov b,l
      rt mov a,k

cell: ld dp,pointer             ; puts the pointer into DP, and lets it go on in its cell
      op mov b,mem
      op mov tr,b
      op inc b,ram
      op mov trb,b
      ld b,63
      op and b,idb | mov non,trb
      op mov mem,b
      rt mov dp,tr

      .dw 0x0000,0x0324,0x0648,0x096A,0x0C8C,0x0FAB,0x12C8,0x15E2
      .dw 0x18F9,0x1C0B,0x1F1A,0x2223,0x2528,0x2826,0x2B1F,0x2E11
      .dw 0x30FB,0x33DF,0x36BA,0x398C,0x3C56,0x3F17,0x41CE,0x447A
      .dw 0x471C,0x49B4,0x4C3F,0x4EBF,0x5133,0x539B,0x55F5,0x5842
      .dw 0x5A82,0x5CB3,0x5ED7,0x60EB,0x62F1,0x64E8,0x66CF,0x68A6
      .dw 0x6A6D,0x6C23,0x6DC9,0x6F5E,0x70E2,0x7254,0x73B5,0x7504
      .dw 0x7641,0x776B,0x7884,0x7989,0x7A7C,0x7B5C,0x7C29,0x7CE3
      .dw 0x7D89,0x7E1D,0x7E9C,0x7F09,0x7F61,0x7FA6,0x7FD8,0x7FF5
      .dw 0x7FFF,0x7FFF
