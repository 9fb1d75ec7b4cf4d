; The firmware of a mill's axis.
;
; Moves come as bytes on PA7. Bit 7 of a byte is the direction, 1 backward, bits 0 to 6 the steps. They wait in a queue.
; For each move PC0 gets the direction, 1 forward, and counter B in pulse mode makes the steps on PA5, a rise each; they
; grow faster up to the middle of the move and slower from there on. Port D shows the position in steps, bits 0 to 7.
; After each move the count of moves is sent on PA6, if the transmitter has room.
;
; LATCH is counter A's latch, 12 where it is not defined: a bit is 208 clocks, 4800 baud with a clock of 1 MHz and 9600
; with 2 MHz (source document 001, Table 6-1). By default the receiver's interrupt puts the bytes into the queue; with
; POLLED defined the main loop does.

        .setcpu "65C02"         ; for RMB, SMB, BBR and BBS
        .include "registers.inc"

.ifndef LATCH
LATCH   = 12
.endif
SLOWEST = 400                   ; clocks of half a step at a move's start
FASTER  = 10                    ; clocks that half a step is shorter after each step
QUEUE   = 32                    ; bytes, a power of 2
PULSES  = $24                   ; MCR while a move is made
AT_REST = $20                   ; MCR between moves

        .zeropage
head:     .res 1                ; the next byte to take
tail:     .res 1                ; the next free place
halves:   .res 1                ; halves of steps left; 0 between moves
steps:    .res 1                ; of the move
done:     .res 1                ; of the move
backward: .res 1                ; bit 7
half:     .res 2                ; clocks of half a step
position: .res 3
moves:    .res 1
queue:    .res QUEUE

        .code
start:  sei
        cld
        ldx #$FF
        txs
        lda #0
        ldx #queue-head
clear:  sta head-1,x
        dex
        bne clear
        lda #AT_REST
        sta MCR
        lda #$C0
        sta SCCR
        lda #LATCH
        sta A_LOW
        lda #0
        sta A_LOAD
.ifndef POLLED
        lda #$40                ; the receiver's interrupt
        sta IER
        cli
.endif

main:
.ifdef POLLED
        bbr0 SCSR,no_byte
        jsr receive
no_byte:
.endif
        lda halves
        beq next_move
        bbr5 IFR,main           ; until an edge of PA5
        lda B_LOW               ; clears the flag
        dec halves
        beq end_of_move
        lda halves
        lsr a
        bcc main                ; the fall: the step goes on
        jsr step
        jmp main

; The last fall of a move: no more pulses.
end_of_move:
        lda #AT_REST
        sta MCR
        inc moves
        bbr6 SCSR,main
        lda moves
        sta SERIAL
        jmp main

; A move from the queue, if there is one, is begun.
next_move:
        ldx head
        cpx tail
        beq main
        lda queue,x
        pha
        inx
        txa
        and #QUEUE-1
        sta head
        pla
        sta backward
        and #$7F
        beq main                ; no steps
        sta steps
        asl a
        sta halves
        smb0 PORT_C
        bit backward
        bpl begin
        rmb0 PORT_C
begin:  lda #0
        sta done
        lda #<SLOWEST
        sta half
        lda #>SLOWEST
        sta half+1
        jsr set_latches
        sta B_LOAD              ; far from an underflow, which would be an edge in pulse mode
        lda #PULSES
        sta MCR
        lda half+1
        sta B_LOAD              ; PA5 low, and the first half step begins
        jmp main

; A rise of PA5: the position, its display, and the clocks of the next steps.
step:   inc done
        bit backward
        bmi down
        inc position
        bne shown
        inc position+1
        bne shown
        inc position+2
        jmp shown
down:   lda position
        bne low
        lda position+1
        bne middle
        dec position+2
middle: dec position+1
low:    dec position
shown:  lda position
        sta PORT_D
        lda done
        asl a
        cmp steps
        bcs slower
        sec
        lda half
        sbc #FASTER
        sta half
        lda half+1
        sbc #0
        sta half+1
        jmp within
slower: clc
        lda half
        adc #FASTER
        sta half
        lda half+1
        adc #0
        sta half+1
within: lda half+1
        bne set_latches
        sta half                ; 100h is the shortest: below it the loop could miss an edge
        inc half+1

; Counter B's latches from the clocks of half a step; A is the upper byte then.
set_latches:
        lda half
        sta B_LOW
        lda half+1
        sta B_COPY
        rts

; A byte into the queue. Uses A and X.
receive:
        ldx tail
        lda SERIAL
        sta queue,x
        inx
        txa
        and #QUEUE-1
        sta tail
        rts

interrupt:
        pha
        txa
        pha
        jsr receive
        pla
        tax
        pla
        rti

ignored:
        rti

        .segment "VECTORS"
        .word ignored, start, interrupt
