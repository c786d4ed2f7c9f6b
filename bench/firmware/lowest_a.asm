; Finds the lowest set bit: the host writes a word, and reads the place of the lowest bit that is set in it, or 16 where
; none is.
;
; All transfers have 16 bits. The word is shifted to the right in B, and A counts the turns that are left down from 16.
; lowest_b.asm counts the turns that were made up, in DP.

again: op mov non,dr            ; asks for the word
ready: jrqm ready
      op mov b,drnf
      ld a,16
turn: op shr1 b,ram             ; the lowest bit goes to the carry
      jcb found
      op dec a,ram
      jnza turn
found: op mov tr,a              ; the turns that were left
      ld a,16
      op sub a,idb | mov non,tr
      op mov dr,a
sent: jrqm sent
      jmp again
