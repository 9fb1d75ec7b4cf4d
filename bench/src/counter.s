; Firmware that does ordinary work: a sum of sixteen bits, an array added into another, a subroutine that goes through a
; pointer and the stack. Counter A goes round every 1,000 clocks in interval mode; each time its flag is found set, port
; A is written.

        .include "registers.inc"

LENGTH  = 8                     ; of an array
first   = $0300
second  = $0310
block   = $0400

        .zeropage
sum:    .res 2
rounds: .res 1                  ; of counter A
place:  .res 2                  ; the block

        .code
start:  ldx #$FF
        txs
        cld
        lda #<block
        sta place
        lda #>block
        sta place+1
        ldx #LENGTH
        lda #4
fill:   sta second,x
        adc #37
        dex
        bne fill
        lda #<999
        sta A_LOW
        lda #>999
        sta A_LOAD

loop:   clc
        lda sum
        adc #3
        sta sum
        lda sum+1
        adc #0
        sta sum+1
        ldx #LENGTH
add:    lda first,x
        adc second,x
        sta first,x
        dex
        bne add
        jsr change
        lda IFR
        and #$10                ; counter A's underflow
        beq loop
        lda A_LOW               ; clears the flag
        inc rounds
        lda rounds
        sta PORT_A
        jmp loop

; A byte of the block changed by the sum.
change: pha
        ldy #2
        lda (place),y
        eor sum
        sta (place),y
        pla
        rts

ignored:
        rti

        .segment "VECTORS"
        .word ignored, start, ignored
