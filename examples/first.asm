; Blinks port B of an ATmega16: all pins are up for a while, then down for a while, and so on.
        ldi  r16, 0xff
        out  0x17, r16          ; DDRB: each pin of port B is an output
        ldi  r17, 0xff
again:  out  0x18, r16          ; PORTB: what the pins show
        eor  r16, r17           ; up becomes down, and down becomes up
        ldi  r18, 200
wait:   subi r18, 1             ; 200 rounds of 3 cycles
        brne wait
        rjmp again
