; A test image like those that `image` is for: it stays at `success` or, where what it finds is not what it wants, at
; `failure`. The sum is document 01's P3. It then counts on port A for some 2,600,000 clocks. Loaded and started at
; 0400h.

PORT_A = $00
ROUNDS = $40                    ; the lowest zero page address that is no register

        .org $0400
start:  jmp sum
success:
        jmp success
wanted: .byte $05
failure:
        bne failure             ; at 0407h
        beq failure

sum:    sed
        sec
        lda #$58
        adc #$46
        cld
        cmp wanted
        bne failure
        lda #5
        sta ROUNDS
        ldx #0
        ldy #0
again:  jsr count
        bcc failure
        dec ROUNDS
        bne again
        jmp success

count:  sty PORT_A
        inx
        bne count
        iny
        bne count
        sec
        rts
