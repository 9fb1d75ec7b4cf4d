S('''1 example tape
Hand: reset 1, LDA 8, STA 10 put 12''',
  'LDA #$55|STA $00|l: JMP l', 100, 0x40, '12 FFFFFF55 end 100 0')

S('''2 A pulse, latch 2
Hand: puts STA14 12 STA18 17 STA1A 22 load, PA4 low, underflow 25 and each 3''',
  'LDA #1|STA $14|LDA #2|STA $18|LDA #0|STA $1A|l: JMP l', 32, 8,
  '22 FFFFFFEF, 25 FFFFFFFF, 28 FFFFFFEF, 31 FFFFFFFF end 32 0')

S('''3 A pulse, latch 0, output full
Hand: STA1A put 20, underflow each clock from 21, fifth record on 24 not free, stop 7''',
  'LDA #1|STA $14|LDA #0|STA $18|STA $1A|l: JMP l', 64, 4,
  '20 FFFFFFEF, 21 FFFFFFFF, 22 FFFFFFEF, 23 FFFFFFFF end 23 7')

S('''4 stop 6 before 7
Hand: as 3 but an undefined opcode on 21, where a second record is needed too''',
  'LDA #1|STA $14|LDA #0|STA $18|STA $1A|.byte $02', 64, 1, '20 FFFFFFEF end 20 6')

S('''5 B asymmetric pulse, B 3, C 1
Hand: puts 12 17 22 27, STA1E 32 loads 3, PA5 low, underflow 36 (C, high) 38 (B, low) 42 44 48''',
  'LDA #4|STA $14|LDA #1|STA $1C|LDA #0|STA $1D|LDA #3|STA $1C|LDA #0|STA $1E|l: JMP l', 48, 8,
  '32 FFFFFFDF, 36 FFFFFFFF, 38 FFFFFFDF, 42 FFFFFFFF, 44 FFFFFFDF, 48 FFFFFFFF end 48 0')

S('''6 A event mode, latch 1, IRQ
Hand: load 22, CLI 28, JMP 30 and each 3, rises 41 43, underflow 43, IRQ 45, INC 52 put 56, LDA18 57, STA 60 put 62''',
  'LDA #2|STA $14|LDA #1|STA $18|LDX #0|STX $1A|LDA #$10|STA $12|CLI|l: JMP l|h: INC $01|LDA $18|STA $02|RTI',
  70, 8, '56 FFFF00FF, 62 FF0100FF end 70 0',
  [(40, 4), (41, 0x44), (42, 4), (43, 0x44)], ('0', 'h'))

S('''7 A pulse width, latch 5
Hand: load 22, LDA1A 23 and each 9, put 5 later, counts 40-43 to 1, 50 to 0, 51 underflow to 5, 52 to 4''',
  'LDA #3|STA $14|LDA #5|STA $18|LDA #0|STA $1A|l: LDA $1A|STA $01|JMP l', 72, 8,
  '28 FFFF05FF, 46 FFFF03FF, 55 FFFF00FF, 64 FFFF04FF end 72 0',
  [(40, 4), (44, 0x44), (50, 4), (53, 0x44)])

S('''8 B retrigger, PA5 rise on the clock of an underflow
Hand: 29 loads 9, due 39 but rise, so 49 59 69, IRQ 51, INC put 62, LDA1C 63, RTI 66, IRQ 72, INC put 83''',
  'LDA #$0C|STA $14|LDA #9|STA $1C|LDA #$20|STA $12|CLI|LDA #0|STA $1E|l: JMP l|h: INC $01|LDA $1C|RTI',
  90, 8, '62 FFFF00FF, 83 FFFF01FF end 90 0', [(37, 5), (39, 0x45)], ('0', 'h'))

S('''9 A interval, IRQ on the clock of an underflow
Hand: 17 loads 10, underflow 28 39 50 61 72, IRQ 28 52 73, INC put 11 later''',
  'LDA #10|STA $18|LDA #0|STA $1A|LDA #$10|STA $12|CLI|l: JMP l|h: INC $01|LDA $18|RTI', 90, 8,
  '39 FFFF00FF, 63 FFFF01FF, 84 FFFF02FF end 90 0', (), ('0', 'h'))

S('''10 serial out 41h, 8 bits, under-run
Hand: tick each clock from 16, STA17 put 25, taken 26, bits 16 long, idle 202, BBR7 16h 26 and each 6, falls out 206, STA put 216''',
  'LDA #0|STA $18|STA $1A|LDA #$80|STA $15|LDA #$41|STA $17|w: BBR7 $16,w|LDA $16|STA $01|l: JMP l', 220, 0x10,
  '26 FFFFFFBF, 42 FFFFFFFF, 58 FFFFFFBF, 138 FFFFFFFF, 154 FFFFFFBF, 170 FFFFFFFF, 216 FFFFC0FF end 220 0')

S('''11 serial out E7h, 5 bits, even parity, latch 1
Hand: 17 loads, ticks 19 21.., STA17 put 27, taken 29, bits 32 long: 0 11100 1 1, SCSR7 285, BBR7 28 and each 6, out 286, STA put 296''',
  'LDA #1|STA $18|LDA #0|STA $1A|LDA #$8F|STA $15|LDA #$E7|STA $17|w: BBR7 $16,w|LDA $16|STA $01|l: JMP l', 300, 0x10,
  '29 FFFFFFBF, 61 FFFFFFFF, 157 FFFFFFBF, 221 FFFFFFFF, 296 FFFFC0FF end 300 0')

S('''12 two frames back to back by IRQ, 5 bits
Hand: CLI 26, IRQ 28, STX17 put 39, taken 40, IRQ 46, STX17 put 57, frame 1 40-167, second taken 168''',
  'LDA #0|STA $18|STA $1A|LDA #$8C|STA $15|LDA #$80|STA $12|CLI|l: JMP l|h: INX|STX $17|RTI', 200, 0x10,
  '40 FFFFFFBF, 56 FFFFFFFF, 72 FFFFFFBF, 136 FFFFFFFF, 168 FFFFFFBF, 200 FFFFFFFF end 200 0', (), ('0', 'h'))

S('''13 end of transmission holds IFR7 until under-run
Hand: STA17 put 25, taken 26, STA16 put 30, CLI 36, idle 154, IRQ 155, LDA 162, STA put 167, STA17 put 170, taken 171, LDA 171, STA put 176''',
  'LDA #0|STA $18|STA $1A|LDA #$8C|STA $15|LDA #$1F|STA $17|LDA #$20|STA $16|LDA #$80|STA $12|CLI|l: JMP l|'
  'h: LDA $16|STA $01|STA $17|LDA $16|STA $01|m: JMP m', 180, 0x10,
  '26 FFFFFFBF, 42 FFFFFFFF, 167 FFFFE0FF, 171 FFFFE0BF, 176 FFFF40BF end 180 0', (), ('0', 'h'))

S('''14 transmitter off and shift mode in a frame
Hand: taken 24, SCCR 00 26, 80 29, STA17 put 32, taken 33, SCCR A0 37''',
  'LDA #0|STA $18|STA $1A|LDX #$80|STX $15|STA $17|STA $15|STX $15|STA $17|LDY #$A0|STY $15|STX $15|l: JMP l', 64, 8,
  '24 FFFFFFBF, 26 FFFFFFFF, 33 FFFFFFBF, 37 FFFFFFFF end 64 0')

RX = 'LDA #0|STA $18|STA $1A|LDA #%s|STA $15|w: %s,w|LDA $16|STA $01|LDA $17|STA $02|LDA $16|STA $01|l: JMP l'
S('''15 serial in C7h, 8 bits, after two low looks only
Hand: looks on even clocks from 22, lows 22 24 no start, low 30, start 36, looks 52 68..164, stop 180, BBR6 11h 21 and each 6, out 183, puts 193 199 205''',
  RX % ('$40', 'BBR6 $11'), 208, 8, '193 FFFF41FF, 199 FFC741FF, 205 FFC740FF end 208 0',
  [(22, 7), (26, 0x47), (30, 7), (46, 0x47), (94, 7), (142, 0x47)])

S('''16 serial in, 7 bits, odd parity wrong
Hand: as 15, data 03 with parity 0: SCSR2 alone, byte kept''',
  RX % ('$46', 'BBR6 $11'), 208, 8, '193 FFFF44FF, 199 FF0344FF, 205 FF0340FF end 208 0',
  [(30, 7), (46, 0x47), (78, 7), (174, 0x47)])

S('''17 serial in, stop low
Hand: as 15, byte 80, SCSR3 alone, byte kept''',
  RX % ('$40', 'BBR6 $11'), 208, 8, '193 FFFF48FF, 199 FF8048FF, 205 FF8040FF end 208 0',
  [(30, 7), (158, 0x47), (174, 7), (190, 0x47)])

S('''18 overrun, 5 bits
Hand: 1F kept at 132, low 150, start 156, end 252: SCSR1, old byte stays, BBR1 16h out 255, puts 265 271 277''',
  RX % ('$4C', 'BBR1 $16'), 280, 8, '265 FFFF43FF, 271 FF1F43FF, 277 FF1F40FF end 280 0',
  [(30, 7), (46, 0x47), (150, 7), (246, 0x47)])

S('''19 edges on PA0-PA3, IRQ
Hand: JMP 15 and each 3, PA0 rise 22, IRQ 24, LDA11 31, put 36, PA2 fall 50, IRQ 51, PA3 fall 55, LDA 58, put 63, PA1 rise 77, IRQ 78, put 90''',
  'LDA #$0F|STA $12|CLI|l: JMP l|h: LDA $11|STA $01|LDA #0|STA $10|RTI', 110, 8,
  '36 FFFF81FF, 63 FFFF8CFF, 90 FFFF82FF end 110 0',
  [(20, 0), (22, 0x40), (50, 2), (55, 3), (76, 1), (77, 0x41), (80, 0x42)], ('0', 'h'))

S('''20 flag with I set
Hand: IFR0 set on 11, CLI 17, IRQ 19, LDA 26, put 30, RMB0 10h 31, RTI 36, LDA 42, put 46''',
  'LDA #1|STA $12|NOP|NOP|CLI|LDA #$55|STA $02|l: JMP l|h: LDA #$AA|STA $01|RMB0 $10|RTI', 60, 8,
  '30 FFFFAAFF, 46 FF55AAFF end 60 0', [(9, 0), (11, 0x40)], ('0', 'h'))

S('''21 NMI fall, held low, then again
Hand: fall 12, entry 14, INC 21 put 25, RTI 26, JMP 32 and each 3, fall 62, entry 62, INC 69 put 73''',
  'l: JMP l|h: INC $01|RTI', 110, 8, '25 FFFF00FF, 73 FFFF01FF end 110 0',
  [(12, 0x20), (60, 0x60), (62, 0x20)], ('h', '0'))

S('''22 reset in a pulse train
Hand: 22 loads 4, underflow 27 32 .. all along, RES low 34-39, entry 40, MCR 51, so toggles 52 57, STA1A put 61, 66 71''',
  'LDA #1|STA $14|LDA #4|STA $18|LDA #0|STA $1A|l: JMP l', 72, 0x10,
  '22 FFFFFFEF, 27 FFFFFFFF, 32 FFFFFFEF, 34 FFFFFFFF, 52 FFFFFFEF, 57 FFFFFFFF, 61 FFFFFFEF, 66 FFFFFFFF, 71 FFFFFFEF '
  'end 72 0', [(34, 0x21), (40, 0x61)])

S('''23 NMI with the rise of RES
Hand: INC put 12, RES low 20, on 25 high with NMI fall: entry 25, NMI 32, LDA 39, put 43, RTI 44, INC 50 put 54''',
  'INC $01|l: JMP l|h: LDA #$5A|STA $02|RTI', 60, 8,
  '12 FFFF00FF, 20 FFFFFFFF, 43 FF5AFFFF, 54 FF5A00FF end 60 0', [(20, 0x21), (25, 0x20), (25, 0x61)], ('h', '0'))

U = 'LDA #$12|STA $01|.byte $02|h: LDA #$34|STA $01|RTI'
S('''24 undefined opcode
Hand: STA put 12, opcode 02h due 13''', U, 100, 8, '12 FFFF12FF end 12 6')
S('''25 the same, NMI fall on 13
Hand: entry 13, STA put 24, RTI 25, again due 31''', U, 100, 8, '12 FFFF12FF, 24 FFFF34FF end 30 6', [(13, 0x20)], ('h', '0'))
S('''26 the same, RES low on 13, high on 20
Hand: entry 20, STA put 31, due 32''', U, 100, 8, '12 FFFF12FF, 13 FFFFFFFF, 31 FFFF12FF end 31 6', [(13, 0x21), (20, 0x61)])
S('''27 undefined opcode on 15, PA0 rise on 15
Hand: IRQ 15, INC put 26, RMB0 27, RTI 32, due 38, its input stays unread''',
  'LDA #1|STA $12|CLI|.byte $03|h: INC $01|RMB0 $10|RTI', 100, 8, '26 FFFF00FF end 37 6',
  [(5, 0), (15, 0x40), (38, 1)], ('0', 'h'))

S('''28 BRK and RTI
Hand: BRK 8, PLA 15, STA put 21, PHA 22, RTI 25, LDX 31, STX put 35''',
  'BRK|.byte 2|LDX #$77|STX $02|l: JMP l|h: PLA|STA $01|PHA|RTI', 40, 8,
  '21 FFFF34FF, 35 FF7734FF end 40 0', (), ('0', 'h'))

S('''29 JSR over its own bytes
Hand: JSR 0390h at 80h with SP 82h on 15: pushes 00 82, high byte read 00, goes to 90h: STA put 25, PLA 26, STA put 32''',
  'LDX #$82|TXS|JMP $0080|.org $80|JSR $0390|.org $90|LDA #$99|STA $01|PLA|STA $02|l: JMP l', 40, 8,
  '25 FFFF99FF, 32 FF8299FF end 40 0')

S('''30 JMP indirect at a page end
Hand: JMP (03FFh) 8 takes 5, high byte at 0300h and not at 0400h, STA put 17''',
  'JMP ($03FF)|.org $210|LDA #$66|STA $01|l: JMP l|.org $300|.byte 2|.org $310|STA $02|.org $3FF|.word $0310', 30, 8,
  '17 FFFF66FF end 30 0')

S('''31 decimal ADC and SBC
Hand: 58 46 C: 05, P CD, put 18, PHP 19, put 28, 12 less 21: 91, P 8C, puts 35 45''',
  'SED|SEC|LDA #$58|ADC #$46|STA $01|PHP|PLA|STA $02|LDA #$12|SBC #$21|STA $01|PHP|PLA|STA $02|l: JMP l', 50, 8,
  '18 FFFF05FF, 28 FFFD05FF, 35 FFFD91FF, 45 FFBC91FF end 50 0')

S('''32 RMW by latch, reads by level, PB0 held low
Hand: LDA 8 FE, put 13, INC 14 FF to 00 put 18, SMB7 put 23, LDA 24 80, put 29, DEC put 34''',
  'LDA $01|STA $02|INC $01|SMB7 $01|LDA $01|STA $02|DEC $02|l: JMP l', 40, 8,
  '13 FFFEFFFF, 18 FFFE00FF, 23 FFFE80FF, 29 FF8080FF, 34 FF7F80FF end 40 0', [(2, 8)])

S('''33 RMW sees a latch toggled on its clock, a read does not
Hand: STA1A put 20, toggles each clock, RMB0 21 reads FF, put 25, LDA 26 FE, put 31''',
  'LDA #1|STA $14|LDA #0|STA $18|STA $1A|RMB0 $00|LDA $00|STA $01|l: JMP l', 31, 0x10,
  '20 FFFFFFEF, 21 FFFFFFFF, 22 FFFFFFEF, 23 FFFFFFFF, 24 FFFFFFEF, 25 FFFFFFFE, 26 FFFFFFEE, 27 FFFFFFFE, 28 FFFFFFEE, '
  '29 FFFFFFFE, 30 FFFFFFEE, 31 FFFFFEFE end 31 0')

S('''34 port D in and out, PD7 held low
Hand: STA03 put 12 unseen, LDA 13 7F, put 18, MCR5 23, LDA 24, put 29, STA03 put 34, LDA 35 70, put 40, MCR 45''',
  'LDA #$5A|STA $03|LDA $03|STA $01|LDA #$20|STA $14|LDA $03|STA $01|LDA #$F0|STA $03|LDA $03|STA $01|LDA #0|STA $14|'
  'l: JMP l', 50, 8,
  '18 FFFF7FFF, 23 5AFF7FFF, 29 5AFF5AFF, 34 F0FF5AFF, 40 F0FF70FF, 45 FFFF70FF end 50 0', [(3, 0x1F)])

S('''35 pushes and pulls in the registers
Hand: PHA 14 to port B, PHP 17 to port A, PHA 20 at FFh, PLA 23, PLA 27 reads port A, STA 31 put 33, JSR 34 02 to port A''',
  'LDX #1|TXS|LDA #$3C|PHA|PHP|PHA|PLA|PLA|STA $02|JSR l|l: JMP l', 44, 8,
  '14 FFFF3CFF, 17 FFFF3C34, 33 FF343C34, 34 FF343C02 end 44 0')

S('''36 code in the registers
Hand: JMP 21, BBS7 at 04 07 0A 0D 10h on 24 29 34 39 44, at 13h 49 tests port A, taken, RTI at 16h 55, LDA 61, put 65''',
  'LDA #2|PHA|LDA #<t|PHA|PHP|JMP $0004|t: LDA #$42|STA $01|l: JMP l', 70, 8, '65 FFFF42FF end 70 0')

S('''37 no record free, none needed
Hand: stores of levels already driven''',
  'l: LDA #$FF|STA $00|STA $01|JMP l', 64, 0, 'end 64 0', [(9, 0x10), (12, 0x50)])
S('''38 no record free, one needed
Hand: STA put 12, stop 7''', 'LDA #0|STA $00|l: JMP l', 64, 0, 'end 11 7')

S('''39 pins not rising within a clock
Hand: refused by the first call, though past the end''', 'l: JMP l', 64, 0, 'end 0 5', [(9, 0), (99, 2), (99, 0x42)])

S('''40 edge by own drive
Hand: puts 12 17, rise seen 18, LDA11 18, put 23, RMB0 24, LDA 29, put 34''',
  'LDA #$FE|STA $00|LDA #$FF|STA $00|LDA $11|STA $01|RMB0 $10|LDA $11|STA $01|l: JMP l', 40, 8,
  '12 FFFFFFFE, 17 FFFFFFFF, 23 FFFF81FF, 34 FFFF80FF end 40 0')

S('''41 SCCR7 holds A to mode 00
Hand: 32 loads 2, no toggle 32 35, SCCR 00 on 37 enters mode 01: PA4 high, toggles 38 41 44''',
  'LDA #$EF|STA $00|LDA #$80|STA $15|LDA #1|STA $14|LDA #2|STA $18|LDA #0|STA $1A|LDA #0|STA $15|l: JMP l', 44, 8,
  '12 FFFFFFEF, 37 FFFFFFFF, 38 FFFFFFEF, 41 FFFFFFFF, 44 FFFFFFEF end 44 0')

S('''42 B event mode by own drive, latch 0
Hand: 20 loads 0, PA5 low 25, high 30, rise and underflow 31, LDA11 31, put 36, LDA1C 37, put 45''',
  'LDA #8|STA $14|LDA #0|STA $1C|STA $1E|LDA #$DF|STA $00|LDA #$FF|STA $00|LDA $11|STA $01|LDA $1C|LDA $11|STA $01|'
  'l: JMP l', 48, 8, '25 FFFFFFDF, 30 FFFFFFFF, 36 FFFFA0FF, 45 FFFF80FF end 48 0')

S('''43 pointer over FFh, crossed page
Hand: port A 02 on 19, LDA (FF),Y 20 takes 5, put 27, LDA abs,X 30 crosses, 5, put 37''',
  'LDA #$10|STA $FF|LDY #$15|LDA #2|STA $00|LDA ($FF),Y|STA $01|LDX #$F0|LDA $0210,X|STA $02|l: JMP l|'
  '.org $225|.byte $C3|.org $300|.byte $3C', 44, 8, '19 FFFFFF02, 27 FFFFC302, 37 FF3CC302 end 44 0')

S('''44 NMI and IRQ on one clock
Hand: both due 20, NMI 21, LDA 28, put 32, RTI 33, IRQ 39, INC put 50''',
  'LDA #1|STA $12|CLI|l: JMP l|n: LDA #$11|STA $01|RTI|h: INC $02|RMB0 $10|RTI', 70, 8,
  '32 FFFF11FF, 50 FF0011FF end 70 0', [(17, 0), (20, 0x40), (20, 0x20)], ('n', 'h'))

S('''45 PLP clears I, IRQ is a level
Hand: IFR0 set on 12, PLP 18, IRQ 22 in place of SEI, INC put 33, RTI 34, IRQ 40, INC put 51''',
  'LDA #1|STA $12|LDA #0|PHA|PLP|SEI|l: JMP l|h: INC $01|RTI', 58, 8,
  '33 FFFF00FF, 51 FFFF01FF end 58 0', [(9, 0), (12, 0x40)], ('0', 'h'))

S('''46 PC from FFFFh to the ports
Hand: JMP 18, LDA at FFFEh 21, STA 02h at 0000h 23 put 25, then opcode 5Ah at 0002h due 26''',
  'LDA #$85|STA $00|LDA #2|STA $01|JMP $FFFE|.org $FFFE|.byte $A9,$5A', 64, 8,
  '12 FFFFFF85, 17 FFFF0285, 25 FF5A0285 end 25 6')

S('''47 indexing over FFFFh and over FFh
Hand: STA 12 put 16, INC 17 put 23, STA 26 put 30, LDA (FE,X) 31 from 78FFh, put 39''',
  'LDX #2|LDA #$77|STA $FFFF,X|INC $FFFF,X|LDY #3|STA $FFFF,Y|LDA ($FE,X)|STA $02|l: JMP l', 44, 8,
  '16 FFFF77FF, 23 FFFF78FF, 30 FF7778FF, 39 FF0078FF end 44 0')

S('''48 counters read
Hand: B 1234h on 17, 1233h on 18, 122Dh on 24, A is FFFFh less the clock: FFE1h on 30, FFDBh on 36''',
  'LDA #$34|STA $1C|LDA #$12|STA $1E|LDA $1D|STA $01|LDA $1E|STA $02|LDA $19|STA $01|LDA $1A|STA $02|l: JMP l', 44, 8,
  '23 FFFF12FF, 29 FF2D12FF, 35 FF2DFFFF, 41 FFDBFFFF end 44 0')

S('''49 SMB0 enters pulse mode, RMB0 leaves it
Hand: PA4 high on 17, not on 22, STA1A put 33 inverts, 34 to 38 toggle, mode 00 from 38''',
  'LDA #$EF|STA $00|SMB0 $14|SMB2 $14|STA $00|LDA #0|STA $18|STA $1A|RMB0 $14|l: JMP l', 44, 0x10,
  '12 FFFFFFEF, 17 FFFFFFFF, 25 FFFFFFEF, 33 FFFFFFFF, 34 FFFFFFEF, 35 FFFFFFFF, 36 FFFFFFEF, 37 FFFFFFFF, 38 FFFFFFEF '
  'end 44 0')

S('''50 B turn outside mode 01, B 5, C 8
Hand: 32 loads 5, underflow 38 (C), mode 00 41, STA1E put 44 keeps PA5 and turn B, mode 01 49, underflow 50 (B) 56 (C) 65 71''',
  'LDA #4|STA $14|LDA #8|STA $1C|LDA #0|STA $1D|LDA #5|STA $1C|LDA #0|STA $1E|NOP|NOP|LDA #0|STA $14|STA $1E|LDA #4|'
  'STA $14|l: JMP l', 72, 8,
  '32 FFFFFFDF, 38 FFFFFFFF, 50 FFFFFFDF, 56 FFFFFFFF, 65 FFFFFFDF, 71 FFFFFFFF end 72 0')

S('''51 INC 17h sends received data plus 1
Hand: INC 21 put 25, 01 taken 26''',
  'LDA #0|STA $18|STA $1A|LDA #$8C|STA $15|INC $17|l: JMP l', 128, 8,
  '26 FFFFFFBF, 42 FFFFFFFF, 58 FFFFFFBF, 122 FFFFFFFF end 128 0')

S('''52 serial in 2Ch, 6 bits, even parity, latch 1, IRQ
Hand: ticks 19 21.., looks 25 29.., low 40, start 53, looks 85 117..245, parity 277, stop 309, IRQ 309, LDA 316, put 321''',
  'LDA #1|STA $18|LDA #0|STA $1A|LDA #$4B|STA $15|LDA #$40|STA $12|CLI|l: JMP l|h: LDA $17|STA $01|RTI', 340, 8,
  '321 FFFF2CFF end 340 0', [(40, 7), (136, 0x47), (200, 7), (232, 0x47)], ('0', 'h'))

S('''53 inputs on ports B and C, one repeated
Hand: LDA 8 F7, put 13, LDA 14 DF, put 19''',
  'LDA $01|STA $00|LDA $02|STA $00|l: JMP l', 24, 8, '13 FFFFFFF7, 19 FFFFFFDF end 24 0',
  [(4, 0x0B), (4, 0x15), (6, 0x0B)])

S('''54 reset in a frame
Hand: taken 26, RES low 30-32, entry 33, first LDA 40, SCCR 52, STA17 put 57, taken 58''',
  'LDA #0|STA $18|STA $1A|LDA #$80|STA $15|LDA #$41|STA $17|l: JMP l', 60, 8,
  '26 FFFFFFBF, 30 FFFFFFFF, 58 FFFFFFBF end 60 0', [(30, 0x21), (33, 0x61)])

S('''55 branch lengths
Hand: BNE 12 3, 17 2, INC 19, JMP 24, CLC 27, BCC 29 to the next page 4, INC 33, BBR0 38 back 7, CLC 45, BCC 47, INC 51, puts 4 later''',
  'LDX #2|d: DEX|BNE d|INC $01|JMP c|.org $2FB|c: CLC|BCC i|.byte 0,0|i: INC $01|BBR0 $80,c', 55, 8,
  '23 FFFF00FF, 37 FFFF01FF, 55 FFFF02FF end 55 0')

S('''56 IRQ entry into the ports
Hand: SP 02, PA0 rise 22, IRQ 22 pushes 02 08 20 to ports C B A, RTI 29, IRQ again 35, same bytes''',
  'LDX #2|TXS|LDA #1|STA $12|CLI|l: JMP l|h: RTI', 48, 8, '22 FF020820 end 48 0', [(20, 0), (22, 0x40)], ('0', 'h'))

S('''57 flag set and read on one clock
Hand: 17 loads 5, underflow 23, LDA18 23 reads 05 and clears, LDX11 26 80, puts 31 34''',
  'LDA #5|STA $18|LDA #0|STA $1A|LDA $01|NOP|LDA $18|LDX $11|STA $01|STX $02|l: JMP l', 40, 8,
  '31 FFFF05FF, 34 FF8005FF end 40 0')

S('''58 IFR not written, unassigned FF
Hand: LDA11 16 80, put 21, LDA04 22 FF, EOR1F 25, put 30''',
  'LDA #0|STA $11|STA $1F|LDA $11|STA $01|LDA $04|EOR $1F|STA $02|l: JMP l', 36, 8,
  '21 FFFF80FF, 30 FF0080FF end 36 0')

S('''59 SCSR bits 4 and 5 written, IFR7
Hand: LDA16 13 70, put 18, LDA11 19 00, put 24, LDA16 30 40, put 35''',
  'LDA #$FF|STA $16|LDA $16|STA $01|LDA $11|STA $02|LDA #0|STA $16|LDA $16|STA $01|l: JMP l', 40, 8,
  '18 FFFF70FF, 24 FF0070FF, 35 FF0040FF end 40 0')

S('''60 both halves at once, 8 bits, odd parity, in 5Ah
By the plain-clock model''',
  'LDA #0|STA $18|STA $1A|LDA #$C2|STA $15|LDA #$A7|STA $17|w: BBR0 $16,w|LDA $17|STA $01|v: BBR7 $16,v|LDA $16|STA $02|l: JMP l',
  250, 0x20, None,
  [(30, 7), (62, 0x47), (78, 7), (94, 0x47), (126, 7), (142, 0x47), (158, 7), (174, 0x47)])

S('''61 framing fault on a full register: SCSR0, 1 and 3
By the plain-clock model''',
  RX % ('$4C', 'BBR3 $16'), 280, 8, None, [(30, 7), (46, 0x47), (150, 7), (260, 0x47)])

S('''62 A pulses drive PA4 edges, B event counts PA5, both with IRQ
By the plain-clock model''',
  'LDA #9|STA $14|LDA #4|STA $18|LDA #0|STA $1A|LDA #1|STA $1C|LDA #0|STA $1E|LDA #$30|STA $12|CLI|l: JMP l|'
  'h: LDA $11|STA $01|LDA $18|LDA $1C|STA $02|RTI', 160, 0x40, None,
  [(k, 5 | 64 * (k // 7 & 1)) for k in range(42, 147, 7)], ('0', 'h'))

S('''63 JMP indirect at FFFFh
Hand: JMP (FFFFh) 8 takes 5, high byte at FF00h and not port A, STA put 17''',
  'JMP ($FFFF)|.org $210|LDA #$66|STA $01|l: JMP l|.org $FF00|.byte 2|.org $FFFF|.byte $10', 30, 8,
  '17 FFFF66FF end 30 0')

S('''64 JMP indirect at 00FFh, high byte from port A
Hand: puts 12 17, JMP (00FFh) 18 takes 5, port A reads 02, STA put 27''',
  'LDA #2|STA $00|LDA #$10|STA $FF|JMP ($00FF)|.org $210|LDA #$66|STA $01|l: JMP l', 40, 8,
  '12 FFFFFF02, 27 FFFF6602 end 40 0')

S('''65 RES low on the last clock of a store
Hand: STA 10, dropped 12, entry 13, STA 22 put 24''',
  'LDA #0|STA $01|l: JMP l', 30, 8, '24 FFFF00FF end 30 0', [(12, 0x21), (13, 0x61)])

S('''66 RMW over a latch toggled meanwhile
Hand: load 22, ASL 0000h 23 reads EF, toggles 24 26 28, put 28 DE, LDA 29 DE, toggles 30 32 34, put 34''',
  'LDA #1|STA $14|STA $18|LDA #0|NOP|STA $1A|ASL $0000|LDA $00|STA $01|l: JMP l', 34, 0x10,
  '22 FFFFFFEF, 24 FFFFFFFF, 26 FFFFFFEF, 28 FFFFFFDE, 30 FFFFFFCE, 32 FFFFFFDE, 34 FFFFDECE end 34 0')
