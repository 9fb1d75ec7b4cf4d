; Ordinary work for the benchmark, in rounds: sums of sixteen bits, array loops, products by a subroutine, accesses
; through pointers, a sort. It touches no register of the chip, is never in decimal mode and takes no interrupt. The
; linker is given `rounds`.
;
; It exits as a program for sim65 does, by a jump to FFF9h with the exit code in A: a check sum over what the rounds
; have left.

        .export __EXEHDR__ : absolute = 1
        .import __MAIN_START__, rounds

EXIT     = $FFF9
LENGTH   = 64           ; of an array
FACTORS  = 16           ; pairs that are multiplied
SORTED   = 16           ; bytes that are sorted

        .segment "EXEHDR"
        .byte "sim65"
        .byte 2, 0              ; the header's version, a 6502
        .byte <total            ; no C stack: any address
        .addr __MAIN_START__, start

        .zeropage
left:    .res 2                 ; rounds
total:   .res 2
seed:    .res 2
factor:  .res 1
other:   .res 1
product: .res 2
from:    .res 2
to:      .res 2
last:    .res 1

        .bss
first:   .res LENGTH
second:  .res LENGTH
result:  .res LENGTH
copy:    .res LENGTH
sorted:  .res SORTED
block:   .res 256

        .segment "STARTUP"

; sim65 starts with I clear, the chip with I set.
start:  sei
        cld
        ldx #$FF
        txs
        jsr fill
        lda #<rounds
        sta left
        lda #>rounds
        sta left+1
round:  jsr sums
        jsr arrays
        jsr products
        jsr copies
        jsr sort
        lda left
        bne low
        dec left+1
low:    dec left
        lda left
        ora left+1
        bne round

        ldx #LENGTH-1
        lda total
        clc
        adc total+1
check:  adc first,x
        adc second,x
        adc result,x
        adc copy,x
        dex
        bpl check
        jmp EXIT

        .code

; All data drawn anew.
fill:   lda #$37
        sta seed
        sta seed+1
        lda #0
        sta total
        sta total+1
        tax
draw_block:
        jsr draw
        sta block,x
        inx
        bne draw_block
        ldx #LENGTH-1
draw_arrays:
        jsr draw
        sta first,x
        jsr draw
        sta second,x
        lda #0
        sta copy,x
        dex
        bpl draw_arrays
        rts

; A byte from a feedback shift register of sixteen bits.
draw:   ldy #8
        lda seed
draw_bit:
        asl a
        rol seed+1
        bcc no_feedback
        eor #$2D
no_feedback:
        dey
        bne draw_bit
        sta seed
        rts

; The words of an array into the total.
sums:   ldx #0
next_word:
        clc
        lda total
        adc first,x
        sta total
        lda total+1
        adc first+1,x
        sta total+1
        inx
        inx
        cpx #LENGTH
        bne next_word
        rts

; Two arrays added into a third, and both changed.
arrays: ldx #LENGTH-1
        clc
next_byte:
        lda first,x
        adc second,x
        sta result,x
        eor total
        sta first,x
        lda second,x
        asl a
        adc #0
        sta second,x
        dex
        bpl next_byte
        rts

; Products of two arrays' bytes into the total.
products:
        ldy #FACTORS-1
next_product:
        lda first,y
        sta factor
        lda second,y
        jsr multiply
        clc
        lda total
        adc product
        sta total
        lda total+1
        adc product+1
        sta total+1
        dey
        bpl next_product
        rts

; A times `factor`; keeps X.
multiply:
        sta other
        txa
        pha
        lda #0
        ldx #8
next_bit:
        lsr factor
        bcc no_sum
        clc
        adc other
no_sum: ror a
        ror product
        dex
        bne next_bit
        sta product+1
        pla
        tax
        rts

; Part of the block, from a place that changes, into the copy through pointers; one byte of the block changes.
copies: lda total
        and #$7F
        clc
        adc #<block
        sta from
        lda #>block
        adc #0
        sta from+1
        lda #<copy
        sta to
        lda #>copy
        sta to+1
        ldy #LENGTH-1
next_copy:
        lda (from),y
        eor (to),y
        sta (to),y
        dey
        bpl next_copy
        ldy #0
        lda total+1
        sta (from),y
        rts

; The first bytes of the result, sorted by exchanges of neighbors.
sort:   ldx #SORTED-1
take:   lda result,x
        sta sorted,x
        dex
        bpl take
        ldy #SORTED-1
pass:   sty last
        ldx #0
pair:   lda sorted,x
        cmp sorted+1,x
        bcc in_order
        beq in_order
        pha
        lda sorted+1,x
        sta sorted,x
        pla
        sta sorted+1,x
in_order:
        inx
        cpx last
        bne pair
        dey
        bne pass
        rts
