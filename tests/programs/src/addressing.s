; Every opcode of the 6502 in every addressing mode, with registers, flags and data drawn anew each round; then branches
; near the end of a page, taken and not, to both sides. Registers and flags after each instruction, and the data after
; each round, go to standard output. With SIM65 defined ROL absolute,X is left out, which sim65 takes for an instruction
; of two bytes, and JMP indirect through a page's end, of which it warns on standard error.

        .export _main
        .import pushax, _write

STANDARD_OUTPUT = 1
ROUNDS = 100
INTERRUPT_VECTOR = $FFFE
NOT_DECIMAL = %11110111

        .zeropage
seed:     .res 2
rounds:   .res 1
drawn_a:  .res 1
drawn_x:  .res 1
drawn_y:  .res 1
drawn_p:  .res 1
kept_a:   .res 1
kept_y:   .res 1
noted:    .res 1
pointer:  .res 2
place:    .res 2
target:   .res 2
opcode:   .res 1
zero:     .res 8
zero_end:

        .bss
notes:    .res 256
data:     .res 768
data_end:
field:    .res 768
field_end:

; An indexed access to `middle` reaches the next page with an index from 80h up.
middle = ((data + $FF) & $FF00) + $80

; The end of a page, with room for a branch's reach on both sides.
boundary = (field + $1FF) & $FF00

        .data
jump:     .addr jumped
displacements:
        .byte 2, 3, 64, 127, <-4, <-5, <-6, <-64, <-128
displacements_end:
places: .byte <-6, <-5, <-4, <-3, <-2, <-1, 0, 1, 2, 60
places_end:

        .code

; The instruction, with what was drawn in the registers. What it leaves there is noted.
.macro try instruction
        jsr take_drawn
        instruction
        jsr note
.endmacro

; The operand such that the index leads to the address, by way of FFh or not.
.macro aim instruction, index, address
        lda #<(address)
        sec
        sbc index
        sta instruction + 1
.endmacro

.macro try_zero_x operation, address
        .local there
        aim there, drawn_x, address
        jsr take_drawn
there:  operation $00,x
        jsr note
.endmacro

.macro try_zero_y operation, address
        .local there
        aim there, drawn_y, address
        jsr take_drawn
there:  operation $00,y
        jsr note
.endmacro

.macro try_indirect_x operation, address
        .local there
        aim there, drawn_x, address
        jsr take_drawn
there:  operation ($00,x)
        jsr note
.endmacro

; The modes that ADC, AND, CMP, EOR, LDA, ORA, SBC and STA have in common.
.macro try_all operation
        try {operation zero + 2}
        try_zero_x operation, zero + 3
        try {operation middle}
        try {operation middle,x}
        try {operation middle,y}
        try_indirect_x operation, pointer
        try {operation (pointer),y}
.endmacro

; The modes that ASL, DEC, INC, LSR, ROL and ROR have in common, absolute,X apart.
.macro try_modify operation
        try {operation zero + 4}
        try_zero_x operation, zero + 5
        try {operation middle + 1}
.endmacro

_main:  sei
        lda #<interrupted
        sta INTERRUPT_VECTOR
        lda #>interrupted
        sta INTERRUPT_VECTOR + 1
        lda #<middle
        sta pointer
        lda #>middle
        sta pointer + 1
        lda #$A7
        sta seed
        sta seed + 1
        lda #0
        sta noted
        lda #ROUNDS
        sta rounds
next_round:
        jsr draw_data
        jsr draw_registers
        jsr reads
        jsr draw_registers
        jsr loads
        jsr draw_registers
        jsr writes
        jsr draw_registers
        jsr implied
        jsr draw_registers
        jsr jumps
        jsr give_data
        dec rounds
        bne next_round
        jsr branches
        jsr give_notes
        lda #0
        tax
        rts

reads:  try {adc #$5C}
        try_all adc
        try {and #$5C}
        try_all and
        try {cmp #$5C}
        try_all cmp
        try {eor #$5C}
        try_all eor
        try {ora #$5C}
        try_all ora
        try {sbc #$5C}
        try_all sbc
        try {bit zero}
        try {bit middle}
        try {cpx #$5C}
        try {cpx zero}
        try {cpx middle}
        try {cpy #$5C}
        try {cpy zero}
        try {cpy middle}
        rts

loads:  try {lda #$5C}
        try_all lda
        try {ldx #$5C}
        try {ldx zero}
        try_zero_y ldx, zero + 1
        try {ldx middle}
        try {ldx middle,y}
        try {ldy #$5C}
        try {ldy zero}
        try_zero_x ldy, zero + 1
        try {ldy middle}
        try {ldy middle,x}
        rts

writes: try_all sta
        try {stx zero}
        try_zero_y stx, zero + 1
        try {stx middle + 7}
        try {sty zero + 6}
        try_zero_x sty, zero + 7
        try {sty middle + 8}
        try {asl a}
        try_modify asl
        try {asl middle,x}
        try_modify dec
        try {dec middle,x}
        try_modify inc
        try {inc middle,x}
        try {lsr a}
        try_modify lsr
        try {lsr middle,x}
        try {rol a}
        try_modify rol
.ifndef SIM65
        try {rol middle,x}
.endif
        try {ror a}
        try_modify ror
        try {ror middle,x}
        rts

implied:
        try clc
        try cld
        try cli
        try clv
        try sec
        try sed
        try sei
        try dex
        try dey
        try inx
        try iny
        try nop
        try tax
        try tay
        try txa
        try tya
        try tsx
        tsx
        dex
        dex
        txs
        jsr note
        tsx
        inx
        inx
        txs
        jsr note
        rts

jumps:  jsr take_drawn
        pha
        php
        jsr note
        plp
        jsr note
        pla
        jsr note
        jsr take_drawn
        jmp (jump)
jumped: jsr note
.ifndef SIM65
        jsr jump_at_page_end
.endif
        jsr take_drawn
        brk
        .byte $EA
        jsr note
        rts

; JMP indirect through the last byte of a page: the high byte is the page's first one. Put as bytes, since the
; assembler warns of such a pointer.
jump_at_page_end:
        lda #<behind
        sta boundary - 1
        lda #>behind
        sta boundary - $100
        jsr take_drawn
        .byte $6C
        .addr boundary - 1
        jsr note
        jsr note
behind: jsr note
        rts

; Notes the status that BRK pushed, bits 4 and 5 included.
interrupted:
        pla
        pha
        jsr note
        rti

; Each branch at each place with each displacement, by the drawn flags and by their opposites.
branches:
        ldx #places_end - places - 1
next_place:
        txa
        pha
        jsr set_place
        ldx #displacements_end - displacements - 1
next_displacement:
        txa
        pha
        lda displacements,x
        jsr set_target
        lda #$10                ; BPL, the first of the eight
next_branch:
        sta opcode
        jsr try_branch
        lda opcode
        clc
        adc #$20
        bcc next_branch
        pla
        tax
        dex
        bpl next_displacement
        pla
        tax
        dex
        bpl next_place
        rts

; The place, signed in `places` + X, beside the boundary.
set_place:
        ldy #>boundary
        lda places,x
        bpl :+
        dey
:       sta place
        sty place + 1
        sta call + 1
        sty call + 2
        rts

; A branch in the field with the displacement in A: INX and RTS behind it, INY and RTS where it leads.
set_target:
        ldy #1
        sta (place),y
        ldx #0
        tay
        bpl :+
        dex
:       clc
        adc place
        sta target
        txa
        adc place + 1
        sta target + 1
        ldy #2
        lda #$E8
        sta (place),y
        lda #$C8
        sta (target),y
        iny
        lda #$60
        sta (place),y
        sta (target),y
        rts

try_branch:
        ldy #0
        lda opcode
        sta (place),y
        jsr draw_registers
        jsr try_flags
        lda drawn_p
        eor #NOT_DECIMAL
        sta drawn_p
try_flags:
        jsr take_drawn
call:   jsr $0000
        jmp note

; Appends A, X, Y and P to the notes. Leaves X as it is, and decimal mode off.
note:   php
        cld
        sta kept_a
        sty kept_y
        ldy noted
        lda kept_a
        sta notes,y
        iny
        txa
        sta notes,y
        iny
        lda kept_y
        sta notes,y
        iny
        pla
        sta notes,y
        iny
        sty noted
        bne :+
        txa
        pha
        jsr give_notes
        pla
        tax
:       rts

; What was drawn into A, X, Y and P.
take_drawn:
        ldx drawn_x
        ldy drawn_y
        lda drawn_p
        pha
        lda drawn_a
        plp
        rts

; Decimal mode is never drawn: sim65's decimal SBC is another one.
draw_registers:
        jsr draw
        sta drawn_a
        jsr draw
        sta drawn_x
        jsr draw
        sta drawn_y
        jsr draw
        and #NOT_DECIMAL
        sta drawn_p
        rts

draw_data:
        ldx #0
:       jsr draw
        sta data,x
        jsr draw
        sta data + $100,x
        jsr draw
        sta data + $200,x
        inx
        bne :-
        ldx #zero_end - zero - 1
:       jsr draw
        sta zero,x
        dex
        bpl :-
        rts

; A byte of a shift register of 16 bits with feedback, which goes on by four bits.
draw:   ldy #4
        lda seed
:       asl a
        rol seed + 1
        bcc :+
        eor #$2D
:       dey
        bne :--
        sta seed
        eor seed + 1
        rts

.macro give first, last
        lda #<STANDARD_OUTPUT
        ldx #>STANDARD_OUTPUT
        jsr pushax
        lda #<(first)
        ldx #>(first)
        jsr pushax
        lda #<(last - first)
        ldx #>(last - first)
        jsr _write
.endmacro

give_data:
        give data, data_end
        give zero, zero_end
        rts

give_notes:
        give notes, data
        rts
