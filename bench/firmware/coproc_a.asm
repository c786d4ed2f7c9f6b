; A small coprocessor. The host writes a command, a byte, and what the command takes, and reads what it answers:
;
;   0  takes the words x and y, answers the upper half of 2xy
;   1  takes the words x and y, answers x + y
;   2  takes the words x and y, answers x - y
;   3  takes a word and a byte, answers the word shifted to the right by the low four bits of the byte, its sign kept
;   4  takes a byte, answers the word of a table of reciprocals that the low six bits of the byte choose
;   5  takes a byte and a word, stores the word in the cell that the low six bits of the byte choose
;   6  takes a byte, answers the cell that its low six bits choose
;   7  takes a byte; where its lowest bit is set, sums and differences that overflow are held at the bound from now on
;
; After another command the chip asks for a command again. Commands and bytes are transfers of 8 bits, and words are
; transfers of 16.
;
; Here the command is counted down to find its routine, and bytes and words are taken by subroutines. The cells of the
; host are the first 64, and the mode stands behind them. coproc_b.asm is a second version, and coproc_fault.asm is
; that one with a fault.

      .equ mode,0x40
      .equ low,0x00FF
      .equ six,0x003F

main: call byte                 ; takes a command
      jza multiply
      op dec a,ram
      jza add
      op dec a,ram
      jza subtract
      op dec a,ram
      jza shift
      op dec a,ram
      jza look
      op dec a,ram
      jza store
      op dec a,ram
      jza recall
      op dec a,ram
      jza change
      jmp main

multiply: call word
      op mov k,a
      call word
      op mov l,a
      ld a,0
      op add a,m
      jmp send

add:  call word
      op mov b,a
      call word
      op add a,idb | mov non,b
      jmp hold

subtract: call word
      op mov b,a
      call word
      op mov tr,a
      op mov a,b
      op sub a,idb | mov non,tr
hold: jnova1 send               ; the result is right
      ld dp,mode
      ld b,1
      op and b,ram
      jzb send                  ; it isn't to be held
      op mov a,sgn              ; the bound on the side of the right result
      jmp send

shift: call word
      op mov b,a
      call byte
      ld tr,15
      op and a,idb | mov non,tr ; the turns to make
turn: jza shifted
      op shr1 b,ram
      op dec a,ram
      jmp turn
shifted: op mov a,b
      jmp send

look: call byte
      ld tr,six
      op and a,idb | mov non,tr
      ld tr,table
      op add a,idb | mov non,tr
      op mov rp,a
      op mov a,ro
      jmp send

store: call byte
      ld tr,six
      op and a,idb | mov non,tr
      op mov dp,a
      call word
      op mov mem,a
      jmp main

recall: call byte
      ld tr,six
      op and a,idb | mov non,tr
      op mov dp,a
      op mov a,mem
send: ld sr,0                   ; transfers of 16 bits
      op mov dr,a
sent: jrqm sent
      jmp main

change: call byte
      ld dp,mode
      op mov mem,a
      jmp main

byte: ld sr,0x0400              ; takes a byte to A; transfers of 8 bits
      op mov non,dr
wait: jrqm wait
      op mov a,drnf
      ld tr,low
      rt and a,idb | mov non,tr

word: ld sr,0                   ; takes a word to A; transfers of 16 bits
      op mov non,dr
ready: jrqm ready
      rt mov a,drnf

      .dorg 0x100
table:.dw 0x8000,0x7E08,0x7C1F,0x7A45,0x7878,0x76BA,0x7507,0x7361
      .dw 0x71C7,0x7038,0x6EB4,0x6D3A,0x6BCA,0x6A64,0x6907,0x67B2
      .dw 0x6666,0x6523,0x63E7,0x62B3,0x6186,0x6060,0x5F41,0x5E29
      .dw 0x5D17,0x5C0C,0x5B06,0x5A06,0x590B,0x5816,0x5726,0x563B
      .dw 0x5555,0x5474,0x5398,0x52BF,0x51EC,0x511C,0x5050,0x4F89
      .dw 0x4EC5,0x4E05,0x4D48,0x4C90,0x4BDA,0x4B28,0x4A79,0x49CD
      .dw 0x4925,0x487F,0x47DC,0x473C,0x469F,0x4604,0x456C,0x44D7
      .dw 0x4444,0x43B4,0x4326,0x429A,0x4211,0x4189,0x4104,0x4081
