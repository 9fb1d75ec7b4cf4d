; ADC of every accumulator, operand and carry: 131,072 results, each with its flags, written to standard output.
; With SUBTRACT defined it is SBC, with DECIMAL defined it is decimal.

        .export _main
        .import pushax, _write

STANDARD_OUTPUT = 1

.macro operation operand
.ifdef SUBTRACT
        sbc operand
.else
        adc operand
.endif
.endmacro

        .zeropage
first:  .res 1
second: .res 1
carry:  .res 1

        .bss
results: .res 256
flags:   .res 256
row_end:

        .code

; sim65 starts with I clear, the chip with I set.
_main:  sei
        lda #0
        sta carry
next_carry:
        lda #0
        sta first
next_first:
        jsr row
        jsr hand_out
        inc first
        bne next_first
        inc carry
        lda carry
        cmp #2
        bne next_carry
        lda #0
        tax
        rts

; `first` with every operand.
row:    ldy #0
.ifdef DECIMAL
        sed
.endif
next_operand:
        sty second
        lda carry
        lsr a
        lda first
        operation second
        php
        sta results,y
        pla
        sta flags,y
        iny
        bne next_operand
        cld
        rts

; The row to standard output.
hand_out:
        lda #<STANDARD_OUTPUT
        ldx #>STANDARD_OUTPUT
        jsr pushax
        lda #<results
        ldx #>results
        jsr pushax
        lda #<(row_end - results)
        ldx #>(row_end - results)
        jmp _write
