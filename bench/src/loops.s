; Small firmware for the benchmark, each a loop around one kind of work, by the symbol that is defined: POLL a register
; polled; PORT a port written; SERIAL_BOTH bytes sent and received without a pause, counter A with LATCH, and work; none
; of them: work alone.

        .setcpu "65C02"         ; for BBR
        .include "registers.inc"

LENGTH  = 8                     ; of an array

        .zeropage
sum:    .res 2
last:   .res 1
first:  .res LENGTH+1
second: .res LENGTH+1

        .code
start:  sei
        cld
        ldx #$FF
        txs
        ldx #LENGTH
fill:   txa
        sta first,x
        sta second,x
        dex
        bpl fill
.ifdef SERIAL_BOTH
        lda #$C0
        sta SCCR
        lda #LATCH
        sta A_LOW
        lda #0
        sta A_LOAD
.endif

main:
.ifdef POLL
        bbr0 IFR,main           ; no edge of PA0 comes
        jmp main
.elseif .defined(PORT)
        inx
        stx PORT_B
        jmp main
.else
.ifdef SERIAL_BOTH
        bbr6 SCSR,no_room
        stx SERIAL
        inx
no_room:
        bbr0 SCSR,no_byte
        lda SERIAL
        sta last
no_byte:
.endif
        clc
        lda sum
        adc #3
        sta sum
        lda sum+1
        adc #0
        sta sum+1
        ldy #LENGTH
add:    lda first,y
        adc second,y
        sta first,y
        dey
        bne add
        jmp main
.endif

ignored:
        rti

        .segment "VECTORS"
        .word ignored, start, ignored
