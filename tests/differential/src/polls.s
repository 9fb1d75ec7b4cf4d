; Small firmware for the part `stretches`, each a loop that looks at counters, flags and the serial channel, by the
; symbol that is defined. Counter A has LATCH, the serial channel CONTROL, both halves with 8 bits by default.
; STATUS: the serial status polled until a byte is lost, then both bytes are done with; nothing is stored meanwhile.
; WATCH: flags, status, port A and both counters read one after the other, and their sum kept.
; TICKS: counter A's flag polled and cleared, and the underflows shown on port B.
; INTERRUPT: counter A's interrupt counts its underflows; the serial status is polled meanwhile.
; PULSES: both counters in pulse mode, A's flag polled, B's by an interrupt.

        .setcpu "65C02"         ; for BBR
        .include "registers.inc"

.ifndef CONTROL
CONTROL = $C0
.endif
A_UPPER = $19                   ; read: counter A's upper byte
B_UPPER = $1D                   ; read: counter B's

        .zeropage
sum:    .res 1
rounds: .res 1

        .code
start:  sei
        cld
        ldx #$FF
        txs
.ifdef PULSES
        lda #$05                ; both counters in pulse mode
        sta MCR
        lda #60
        sta B_LOW
        lda #0
        sta B_COPY
        lda #83
        sta B_LOW
        lda #0
        sta B_LOAD
.else
        lda #CONTROL
        sta SCCR
.endif
        lda #LATCH
        sta A_LOW
        lda #0
        sta A_LOAD
.ifdef INTERRUPT
        lda #$10                ; counter A's interrupt
        sta IER
        cli
.elseif .defined(PULSES)
        lda #$20                ; counter B's interrupt
        sta IER
        cli
.endif

main:
.if .defined(STATUS) .or .defined(INTERRUPT)
        lda SCSR
        and #$02                ; a byte lost
        beq main
        lda SERIAL              ; clears the status
        inc rounds
        bbr6 SCSR,main
        sta SERIAL              ; and sends it back
        jmp main
.elseif .defined(WATCH)
        clc
        lda IFR
        adc SCSR
        adc PORT_A
        adc A_UPPER
        adc B_UPPER
        eor sum
        sta sum
        bbr0 SCSR,main
        bbs3 SCSR,main          ; a low stop: the byte stays, and the next is lost
        lda SERIAL
        sta SERIAL
        jmp main
.else
        bbr4 IFR,main
        lda A_LOW               ; clears the flag
        inx
        stx PORT_B
        jmp main
.endif

interrupt:
        pha
.ifdef PULSES
        lda B_LOW               ; clears the flag
.else
        lda A_LOW
.endif
        inc sum
        pla
        rti

ignored:
        rti

        .segment "VECTORS"
        .word ignored, start, interrupt
