; Each byte received on PA7 is a step on PA5, down where its bit 7 is set (PC0). Behind a byte 0 the counters are given
; their longest latches and nothing happens any more.

        .setcpu "65C02"         ; for RMB, SMB, BBR
        .include "registers.inc"

        .code
start:  ldx #$FF
        txs
        lda #12                 ; 4800 baud with a clock of 1 MHz
        sta A_LOW
        lda #0
        sta A_LOAD
        lda #$40
        sta SCCR
next:   bbr0 SCSR,next
        lda SERIAL
        beq ended
        smb0 PORT_C
        bpl step
        rmb0 PORT_C
step:   rmb5 PORT_A
        smb5 PORT_A
        jmp next
ended:  lda #$FF
        sta A_LOW
        sta A_LOAD
        sta B_LOW
        sta B_LOAD
stay:   jmp stay

        .segment "VECTORS"
        .word stay, start, stay
