; Sends back each byte that the host sends.
;
; The host's transfers have 8 bits (DRC is 1), so that one transfer clears the request. A request stands while RQM
; is 1; both waits below leave their loop as soon as the host has answered it.

      ld sr,0x0400      ; DRC: transfers of 8 bits
again: op mov non,dr    ; a move from DR raises a request: the host may write a byte
ready: jrqm ready       ; until the byte is there
      op mov a,drnf     ; takes it, without a further request
      op mov dr,a       ; a move to DR raises a request: the host may read the byte
sent: jrqm sent         ; until it is read
      jmp again
