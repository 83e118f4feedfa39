.const 1 1
.const 2 2
.const 3 3
.const 4 4
.const 5 5
.const 6 6
.const 7 7
.const 8 8
.const 9 4294967295
.const 10 65535
.const 11 11
.const 12 16777215
.const 13 32
.const 14 54
.const 15 55
.const 16 16
.const 17 132
.const 22 22
.const 24 24
.const 31 31
NOP: ; address 0
.entry 0 ; nop
.entry 11 ; fconst_0
.entry 12 ; fconst_1
.entry 13 ; fconst_2
.entry 14 ; dconst_0
.entry 15 ; dconst_1
.entry 23 ; fload
.entry 24 ; dload
.entry 34 ; fload_0
.entry 35 ; fload_1
.entry 36 ; fload_2
.entry 37 ; fload_3
.entry 38 ; dload_0
.entry 39 ; dload_1
.entry 40 ; dload_2
.entry 41 ; dload_3
.entry 48 ; faload
.entry 49 ; daload
.entry 56 ; fstore
.entry 57 ; dstore
.entry 67 ; fstore_0
.entry 68 ; fstore_1
.entry 69 ; fstore_2
.entry 70 ; fstore_3
.entry 71 ; dstore_0
.entry 72 ; dstore_1
.entry 73 ; dstore_2
.entry 74 ; dstore_3
.entry 81 ; fastore
.entry 82 ; dastore
.entry 98 ; fadd
.entry 99 ; dadd
.entry 102 ; fsub
.entry 103 ; dsub
.entry 105 ; lmul
.entry 106 ; fmul
.entry 107 ; dmul
.entry 109 ; ldiv
.entry 110 ; fdiv
.entry 111 ; ddiv
.entry 113 ; lrem
.entry 114 ; frem
.entry 115 ; drem
.entry 118 ; fneg
.entry 119 ; dneg
.entry 134 ; i2f
.entry 135 ; i2d
.entry 137 ; l2f
.entry 138 ; l2d
.entry 139 ; f2i
.entry 140 ; f2l
.entry 141 ; f2d
.entry 142 ; d2i
.entry 143 ; d2l
.entry 144 ; d2f
.entry 149 ; fcmpl
.entry 150 ; fcmpg
.entry 151 ; dcmpl
.entry 152 ; dcmpg
.entry 168 ; jsr
.entry 169 ; ret
.entry 174 ; freturn
.entry 175 ; dreturn
.entry 186 ; invokedynamic
.entry 197 ; multianewarray
.entry 201 ; jsr_w
.entry 202 ; breakpoint
.entry 203 ; none
.entry 204 ; none
.entry 205 ; none
.entry 206 ; none
.entry 207 ; none
.entry 208 ; none
.entry 209 ; none
.entry 210 ; none
.entry 211 ; none
.entry 212 ; none
.entry 213 ; none
.entry 214 ; none
.entry 215 ; none
.entry 216 ; none
.entry 217 ; none
.entry 218 ; none
.entry 219 ; none
.entry 220 ; none
.entry 221 ; none
.entry 222 ; none
.entry 223 ; none
.entry 224 ; none
.entry 225 ; none
.entry 226 ; none
.entry 227 ; none
.entry 228 ; none
.entry 229 ; none
.entry 230 ; none
.entry 231 ; none
.entry 232 ; none
.entry 233 ; none
.entry 234 ; none
.entry 235 ; none
.entry 236 ; none
.entry 237 ; none
.entry 238 ; none
.entry 239 ; none
.entry 240 ; none
.entry 241 ; none
.entry 242 ; none
.entry 243 ; none
.entry 244 ; none
.entry 245 ; none
.entry 246 ; none
.entry 247 ; none
.entry 248 ; none
.entry 249 ; none
.entry 250 ; none
.entry 251 ; none
.entry 252 ; none
.entry 253 ; none
  nop nxt
ICONST_M1: ; address 1
.entry 2 ; iconst_m1
  ldi 9 nxt
ICONST_0: ; address 2
.entry 1 ; aconst_null
.entry 3 ; iconst_0
  ldi 0 nxt
ICONST_1: ; address 3
.entry 4 ; iconst_1
  ldi 1 nxt
ICONST_2: ; address 4
.entry 5 ; iconst_2
  ldi 2 nxt
ICONST_3: ; address 5
.entry 6 ; iconst_3
  ldi 3 nxt
ICONST_4: ; address 6
.entry 7 ; iconst_4
  ldi 4 nxt
ICONST_5: ; address 7
.entry 8 ; iconst_5
  ldi 5 nxt
LCONST_0: ; address 8
.entry 9 ; lconst_0
  ldi 0
  ldi 0 nxt
LCONST_1: ; address 10
.entry 10 ; lconst_1
  ldi 0
  ldi 1 nxt
BIPUSH: ; address 12
.entry 16 ; bipush
  nop opd
  ldo8 nxt
SIPUSH: ; address 14
.entry 17 ; sipush
  nop opd
  nop opd
  ldo16 nxt
LDC: ; address 17
.entry 18 ; ldc
  nop opd
  ldo
  dup
  add
  ldm 24
  add
  stmra
  wait
  ldmrd nxt
LDC_W: ; address 26
.entry 19 ; ldc_w
  nop opd
  nop opd
  ldo
  dup
  add
  ldm 24
  add
  stmra
  wait
  ldmrd nxt
LDC2_W: ; address 36
.entry 20 ; ldc2_w
  nop opd
  nop opd
  ldo
  dup
  add
  ldm 24
  add
  stm 0
  ldm 0
  stmra
  wait
  ldmrd
  ldm 0
  ldi 1
  add
  stmra
  wait
  ldmrd nxt
ILOAD_0: ; address 54
.entry 26 ; iload_0
.entry 42 ; aload_0
  ld0 nxt
ILOAD_1: ; address 55
.entry 27 ; iload_1
.entry 43 ; aload_1
  ld1 nxt
ILOAD_2: ; address 56
.entry 28 ; iload_2
.entry 44 ; aload_2
  ld2 nxt
ILOAD_3: ; address 57
.entry 29 ; iload_3
.entry 45 ; aload_3
  ld3 nxt
ISTORE_0: ; address 58
.entry 59 ; istore_0
.entry 75 ; astore_0
  st0 nxt
ISTORE_1: ; address 59
.entry 60 ; istore_1
.entry 76 ; astore_1
  st1 nxt
ISTORE_2: ; address 60
.entry 61 ; istore_2
.entry 77 ; astore_2
  st2 nxt
ISTORE_3: ; address 61
.entry 62 ; istore_3
.entry 78 ; astore_3
  st3 nxt
ILOAD: ; address 62
.entry 21 ; iload
.entry 25 ; aload
  nop opd
  ldl nxt
ISTORE: ; address 64
.entry 54 ; istore
.entry 58 ; astore
  nop opd
  stl nxt
LLOAD_0: ; address 66
.entry 30 ; lload_0
  ld0
  ld1 nxt
LLOAD_1: ; address 68
.entry 31 ; lload_1
  ld1
  ld2 nxt
LLOAD_2: ; address 70
.entry 32 ; lload_2
  ld2
  ld3 nxt
LLOAD_3: ; address 72
.entry 33 ; lload_3
  ld3
  ldvp
  ldi 4
  add
  star
  ldmi nxt
LSTORE_0: ; address 78
.entry 63 ; lstore_0
  st1
  st0 nxt
LSTORE_1: ; address 80
.entry 64 ; lstore_1
  st2
  st1 nxt
LSTORE_2: ; address 82
.entry 65 ; lstore_2
  st3
  st2 nxt
LSTORE_3: ; address 84
.entry 66 ; lstore_3
  ldvp
  ldi 4
  add
  star
  stmi
  st3 nxt
LLOAD: ; address 90
.entry 22 ; lload
  ldvp opd
  ldo
  add
  ldi 1
  add
  star
  ldl
  ldmi nxt
LSTORE: ; address 98
.entry 55 ; lstore
  ldvp opd
  ldo
  add
  ldi 1
  add
  star
  stmi
  stl nxt
IINC: ; address 106
.entry 132 ; iinc
  ldvp opd
  ldo
  add
  star opd
  ldmi
  ldo8
  add
  stmi nxt
WIDE: ; address 114
.entry 196 ; wide
  nop opd
  ldo opd
  stm 0
  nop opd
  ldvp
  ldo
  ldi 10
  and
  add
  stm 1
  ldm 1
  star
  ldm 0
  ldi 17
  xor
  bz WIDE_IINC
  ldm 0
  ldi 22
  xor
  bz WIDE_LLOAD
  ldm 0
  ldi 15
  xor
  bz WIDE_LSTORE
  ldm 0
  ldi 14
  slt
  bnz WIDE_LOAD
  stmi nxt
WIDE_LOAD: ; address 143
  ldmi nxt
WIDE_IINC: ; address 144
  nop opd
  nop opd
  ldmi
  ldo16
  add
  stmi nxt
WIDE_LLOAD: ; address 150
  ldmi
  ldm 1
  ldi 1
  add
  star
  ldmi nxt
WIDE_LSTORE: ; address 156
  stm 2
  stmi
  ldm 1
  ldi 1
  add
  star
  ldm 2
  stmi nxt
POP: ; address 164
.entry 87 ; pop
  pop nxt
POP2: ; address 165
.entry 88 ; pop2
  pop
  pop nxt
DUP: ; address 167
.entry 89 ; dup
  dup nxt
DUP_X1: ; address 168
.entry 90 ; dup_x1
  stm 0
  stm 1
  ldm 0
  ldm 1
  ldm 0 nxt
DUP_X2: ; address 173
.entry 91 ; dup_x2
  stm 0
  stm 1
  stm 2
  ldm 0
  ldm 2
  ldm 1
  ldm 0 nxt
DUP2: ; address 180
.entry 92 ; dup2
  stm 0
  stm 1
  ldm 1
  ldm 0
  ldm 1
  ldm 0 nxt
DUP2_X1: ; address 186
.entry 93 ; dup2_x1
  stm 0
  stm 1
  stm 2
  ldm 1
  ldm 0
  ldm 2
  ldm 1
  ldm 0 nxt
DUP2_X2: ; address 194
.entry 94 ; dup2_x2
  stm 0
  stm 1
  stm 2
  stm 3
  ldm 1
  ldm 0
  ldm 3
  ldm 2
  ldm 1
  ldm 0 nxt
SWAP: ; address 204
.entry 95 ; swap
  stm 0
  stm 1
  ldm 0
  ldm 1 nxt
IADD: ; address 208
.entry 96 ; iadd
  add nxt
ISUB: ; address 209
.entry 100 ; isub
  sub nxt
IMUL: ; address 210
.entry 104 ; imul
  mul nxt
IAND: ; address 211
.entry 126 ; iand
  and nxt
IOR: ; address 212
.entry 128 ; ior
  or nxt
IXOR: ; address 213
.entry 130 ; ixor
  xor nxt
ISHL: ; address 214
.entry 120 ; ishl
  shl nxt
ISHR: ; address 215
.entry 122 ; ishr
  shr nxt
IUSHR: ; address 216
.entry 124 ; iushr
  ushr nxt
INEG: ; address 217
.entry 116 ; ineg
  ldi 9
  mul nxt
I2B: ; address 219
.entry 145 ; i2b
  ldi 24
  shl
  ldi 24
  shr nxt
I2C: ; address 223
.entry 146 ; i2c
  ldi 10
  and nxt
I2S: ; address 225
.entry 147 ; i2s
  ldi 16
  shl
  ldi 16
  shr nxt
IDIV: ; address 229
.entry 108 ; idiv
  ldi 4
  star
  jmp DIVIDE
IREM: ; address 232
.entry 112 ; irem
  ldi 2
  star
DIVIDE: ; address 234
  stm 1
  stm 0
  ldm 1
  bz RAISE_ARITHMETIC
  ldi 1
  ldm 0
  ldi 31
  ushr
  dup
  add
  sub
  stm 5
  ldi 1
  ldm 1
  ldi 31
  ushr
  dup
  add
  sub
  stm 6
  ldm 0
  ldm 5
  mul
  stm 0
  ldm 1
  ldm 6
  mul
  stm 1
  ldi 0
  stm 2
  ldi 0
  stm 4
  ldi 31
  stm 3
DIVIDE_TURN: ; address 268
  ldm 2
  dup
  add
  ldm 0
  ldm 3
  ushr
  ldi 1
  and
  add
  stm 2
  ldi 1
  ldm 2
  ldm 1
  sltu
  sub
  stm 7
  ldm 2
  ldm 1
  ldm 7
  mul
  sub
  stm 2
  ldm 4
  dup
  add
  ldm 7
  add
  stm 4
  ldm 3
  dup
  ldi 1
  sub
  stm 3
.turns 31
  bnz DIVIDE_TURN
DIVIDE_SIGNS: ; address 302
  ldm 4
  ldm 5
  mul
  ldm 6
  mul
  stm 4
  ldm 2
  ldm 5
  mul
  stm 2
  ldmi nxt
LADD: ; address 313
.entry 97 ; ladd
  stm 0
  stm 1
  stm 2
  stm 3
  ldm 2
  ldm 0
  add
  stm 4
  ldm 3
  ldm 1
  add
  ldm 4
  ldm 0
  sltu
  add
  ldm 4 nxt
LSUB: ; address 329
.entry 101 ; lsub
  stm 0
  stm 1
  stm 2
  stm 3
  ldm 3
  ldm 1
  sub
  ldm 2
  ldm 0
  sltu
  sub
  ldm 2
  ldm 0
  sub nxt
LNEG: ; address 343
.entry 117 ; lneg
  stm 0
  stm 1
  ldi 0
  ldm 1
  sub
  ldi 0
  ldm 0
  sltu
  sub
  ldi 0
  ldm 0
  sub nxt
LAND: ; address 355
.entry 127 ; land
  stm 0
  stm 1
  stm 2
  ldm 1
  and
  ldm 2
  ldm 0
  and nxt
LOR: ; address 363
.entry 129 ; lor
  stm 0
  stm 1
  stm 2
  ldm 1
  or
  ldm 2
  ldm 0
  or nxt
LXOR: ; address 371
.entry 131 ; lxor
  stm 0
  stm 1
  stm 2
  ldm 1
  xor
  ldm 2
  ldm 0
  xor nxt
LSHL: ; address 379
.entry 121 ; lshl
  stm 0
  stm 1
  stm 2
  ldm 0
  ldi 13
  and
  bnz LSHL_HIGH
  ldm 2
  ldm 0
  shl
  ldm 1
  ldi 1
  ushr
  ldi 31
  ldm 0
  sub
  ushr
  add
  ldm 1
  ldm 0
  shl nxt
LSHL_HIGH: ; address 400
  ldm 1
  ldm 0
  shl
  ldi 0 nxt
LSHR: ; address 404
.entry 123 ; lshr
  stm 0
  stm 1
  stm 2
  ldm 0
  ldi 13
  and
  bnz LSHR_HIGH
  ldm 2
  ldm 0
  shr
  ldm 1
  ldm 0
  ushr
  ldm 2
  ldi 1
  shl
  ldi 31
  ldm 0
  sub
  shl
  add nxt
LSHR_HIGH: ; address 425
  ldm 2
  ldi 31
  shr
  ldm 2
  ldm 0
  shr nxt
LUSHR: ; address 431
.entry 125 ; lushr
  stm 0
  stm 1
  stm 2
  ldm 0
  ldi 13
  and
  bnz LUSHR_HIGH
  ldm 2
  ldm 0
  ushr
  ldm 1
  ldm 0
  ushr
  ldm 2
  ldi 1
  shl
  ldi 31
  ldm 0
  sub
  shl
  add nxt
LUSHR_HIGH: ; address 452
  ldi 0
  ldm 2
  ldm 0
  ushr nxt
I2L: ; address 456
.entry 133 ; i2l
  dup
  stm 0
  ldi 31
  shr
  ldm 0 nxt
L2I: ; address 461
.entry 136 ; l2i
  stm 0
  pop
  ldm 0 nxt
LCMP: ; address 464
.entry 148 ; lcmp
  stm 0
  stm 1
  stm 2
  stm 3
  ldm 1
  ldm 3
  slt
  ldm 3
  ldm 1
  slt
  sub
  dup
  add
  ldm 0
  ldm 2
  sltu
  ldm 2
  ldm 0
  sltu
  sub
  add
  stm 4
  ldi 0
  ldm 4
  slt
  ldm 4
  ldi 0
  slt
  sub nxt
IFEQ: ; address 493
.entry 153 ; ifeq
.entry 154 ; ifne
.entry 155 ; iflt
.entry 156 ; ifge
.entry 157 ; ifgt
.entry 158 ; ifle
.entry 198 ; ifnull
.entry 199 ; ifnonnull
  nop opd
  nop opd
  jbr
  nop nxt
IF_ICMPEQ: ; address 497
.entry 159 ; if_icmpeq
.entry 160 ; if_icmpne
.entry 161 ; if_icmplt
.entry 162 ; if_icmpge
.entry 163 ; if_icmpgt
.entry 164 ; if_icmple
.entry 165 ; if_acmpeq
.entry 166 ; if_acmpne
  nop opd
  nop opd
  jbr
  pop nxt
GOTO: ; address 501
.entry 167 ; goto
  nop opd
  nop opd
  jbg
  nop nxt
GOTO_W: ; address 505
.entry 200 ; goto_w
  ldjpc
  ldi 1
  sub
  nop opd
  nop opd
  nop opd
  nop opd
  ldo
  add
  stjpc nxt
TABLESWITCH: ; address 515
.entry 170 ; tableswitch
  stm 4
  ldjpc
  ldi 1
  sub
  stm 0
  ldjpc
  ldi 3
  add
  ldi 2
  ushr
  ldi 2
  shl
  stjpc
  nop opd
  nop opd
  nop opd
  nop opd
  ldo
  stm 1
  nop opd
  nop opd
  nop opd
  nop opd
  ldo
  stm 2
  nop opd
  nop opd
  nop opd
  nop opd
  ldo
  stm 3
  ldm 4
  ldm 2
  slt
  bnz TABLE_JUMP
  ldm 3
  ldm 4
  slt
  bnz TABLE_JUMP
  ldjpc
  ldm 4
  ldm 2
  sub
  ldi 2
  shl
  add
  stjpc
  nop opd
  nop opd
  nop opd
  nop opd
  ldo
  stm 1
TABLE_JUMP: ; address 568
  ldm 0
  ldm 1
  add
  stjpc nxt
LOOKUPSWITCH: ; address 572
.entry 171 ; lookupswitch
  stm 2
  ldjpc
  ldi 1
  sub
  stm 0
  ldjpc
  ldi 3
  add
  ldi 2
  ushr
  ldi 2
  shl
  stjpc
  nop opd
  nop opd
  nop opd
  nop opd
  ldo
  stm 1
  nop opd
  nop opd
  nop opd
  nop opd
  ldo
  stm 3
LOOKUP_TURN: ; address 597
  ldm 3
  bz LOOKUP_JUMP
  nop opd
  nop opd
  nop opd
  nop opd
  ldo
  ldm 2
  xor
  bz LOOKUP_HIT
  nop opd
  nop opd
  nop opd
  nop opd
  ldm 3
  ldi 1
  sub
  stm 3
.turns pairs
  jmp LOOKUP_TURN
LOOKUP_HIT: ; address 616
  nop opd
  nop opd
  nop opd
  nop opd
  ldo
  stm 1
LOOKUP_JUMP: ; address 622
  ldm 0
  ldm 1
  add
  stjpc nxt
IALOAD: ; address 626
.entry 46 ; iaload
.entry 50 ; aaload
.entry 51 ; baload
.entry 52 ; caload
.entry 53 ; saload
  stm 1
  stm 0
  ldm 0
  bz RAISE_NULL
  ldm 1
  ldm 0
  ldi 1
  add
  stmra
  wait
  ldmrd
  sltu
  bz RAISE_INDEX
  ldm 0
  ldm 1
  add
  ldi 2
  add
  stmra
  wait
  ldmrd nxt
LALOAD: ; address 647
.entry 47 ; laload
  stm 1
  stm 0
  ldm 0
  bz RAISE_NULL
  ldm 1
  ldm 0
  ldi 1
  add
  stmra
  wait
  ldmrd
  sltu
  bz RAISE_INDEX
  ldm 0
  ldi 2
  add
  ldm 1
  dup
  add
  add
  stm 0
  ldm 0
  stmra
  wait
  ldmrd
  ldm 0
  ldi 1
  add
  stmra
  wait
  ldmrd nxt
BASTORE: ; address 678
.entry 84 ; bastore
  ldi 24
  shl
  ldi 24
  shr
  stm 2
  jmp STORE_ELEMENT
CASTORE: ; address 684
.entry 85 ; castore
  ldi 10
  and
  stm 2
  jmp STORE_ELEMENT
SASTORE: ; address 688
.entry 86 ; sastore
  ldi 16
  shl
  ldi 16
  shr
  stm 2
  jmp STORE_ELEMENT
IASTORE: ; address 694
.entry 79 ; iastore
  stm 2
STORE_ELEMENT: ; address 695
  stm 1
  stm 0
  ldm 0
  bz RAISE_NULL
  ldm 1
  ldm 0
  ldi 1
  add
  stmra
  wait
  ldmrd
  sltu
  bz RAISE_INDEX
  ldm 0
  ldm 1
  add
  ldi 2
  add
  stmwa
  ldm 2
  stmwd
  wait nxt
LASTORE: ; address 717
.entry 80 ; lastore
  stm 3
  stm 2
  stm 1
  stm 0
  ldm 0
  bz RAISE_NULL
  ldm 1
  ldm 0
  ldi 1
  add
  stmra
  wait
  ldmrd
  sltu
  bz RAISE_INDEX
  ldm 0
  ldi 2
  add
  ldm 1
  dup
  add
  add
  stm 0
  ldm 0
  stmwa
  ldm 2
  stmwd
  wait
  ldm 0
  ldi 1
  add
  stmwa
  ldm 3
  stmwd
  wait nxt
AASTORE: ; address 752
.entry 83 ; aastore
  stm 2
  stm 1
  stm 0
  ldm 0
  bz RAISE_NULL
  ldm 1
  ldm 0
  ldi 1
  add
  stmra
  wait
  ldmrd
  sltu
  bz RAISE_INDEX
  ldm 2
  bz STORE_REFERENCE
  ldm 0
  stmra
  wait
  ldmrd
  ldi 2
  add
  stmra
  wait
  ldmrd
  ldi 1
  sub
  stm 3
  ldm 2
  stmra
  wait
  ldmrd
  stm 4
  ldm 4
  ldi 5
  add
  ldm 3
  ldi 5
  ushr
  add
  stmra
  wait
  ldmrd
  ldm 3
  ushr
  ldi 1
  and
  bz RAISE_STORE
STORE_REFERENCE: ; address 800
  ldm 0
  ldm 1
  add
  ldi 2
  add
  stmwa
  ldm 2
  stmwd
  wait nxt
ARRAYLENGTH: ; address 809
.entry 190 ; arraylength
  stm 0
  ldm 0
  bz RAISE_NULL
  ldm 0
  ldi 1
  add
  stmra
  wait
  ldmrd nxt
GETSTATIC: ; address 818
.entry 178 ; getstatic
  nop opd
  nop opd
  ldo
  dup
  add
  ldm 24
  add
  stm 0
  ldm 0
  stmra
  wait
  ldmrd
  stm 1
  ldm 1
  stmra
  wait
  ldmrd
  ldm 0
  ldi 1
  add
  stmra
  wait
  ldmrd
  bz FIELD_LOADED
  ldm 1
  ldi 1
  add
  stmra
  wait
  ldmrd nxt
PUTSTATIC: ; address 848
.entry 179 ; putstatic
  nop opd
  nop opd
  ldo
  dup
  add
  ldm 24
  add
  stm 0
  ldm 0
  ldi 1
  add
  stmra
  wait
  ldmrd
  bz PUTSTATIC_WORD
  stm 3
  stm 2
  ldm 0
  stmra
  wait
  ldmrd
  stm 1
  ldm 1
  ldi 1
  add
  stmwa
  ldm 3
  stmwd
  wait
  ldm 1
  stmwa
  ldm 2
  stmwd
  wait nxt
PUTSTATIC_WORD: ; address 882
  stm 2
  ldm 0
  stmra
  wait
  ldmrd
  stmwa
  ldm 2
  stmwd
  wait nxt
GETFIELD: ; address 891
.entry 180 ; getfield
  nop opd
  nop opd
  stm 1
  ldm 1
  bz RAISE_NULL
  ldo
  dup
  add
  ldm 24
  add
  stm 0
  ldm 0
  stmra
  wait
  ldmrd
  ldm 1
  add
  stm 1
  ldm 1
  stmra
  wait
  ldmrd
  ldm 0
  ldi 1
  add
  stmra
  wait
  ldmrd
  bz FIELD_LOADED
  ldm 1
  ldi 1
  add
  stmra
  wait
  ldmrd nxt
FIELD_LOADED: ; address 926
  nop nxt
PUTFIELD: ; address 927
.entry 181 ; putfield
  nop opd
  nop opd
  ldo
  dup
  add
  ldm 24
  add
  stm 0
  ldm 0
  ldi 1
  add
  stmra
  wait
  ldmrd
  bz PUTFIELD_WORD
  stm 3
  stm 2
  stm 1
  ldm 1
  bz RAISE_NULL
  ldm 0
  stmra
  wait
  ldmrd
  ldm 1
  add
  stm 1
  ldm 1
  ldi 1
  add
  stmwa
  ldm 3
  stmwd
  wait
  ldm 1
  stmwa
  ldm 2
  stmwd
  wait nxt
PUTFIELD_WORD: ; address 966
  stm 2
  stm 1
  ldm 1
  bz RAISE_NULL
  ldm 0
  stmra
  wait
  ldmrd
  ldm 1
  add
  stmwa
  ldm 2
  stmwd
  wait nxt
NEW: ; address 980
.entry 187 ; new
  nop opd
  nop opd
  ldo
  dup
  add
  ldm 24
  add
  stmra
  wait
  ldmrd
  stm 0
  ldm 0
  ldi 1
  add
  stmra
  wait
  ldmrd
  ldm 26
  add
  stm 2
  ldm 27
  ldm 2
  sltu
  bnz RAISE_MEMORY
  ldm 26
  stmwa
  ldm 0
  stmwd
  wait
  ldm 26
  ldm 2
  stm 26 nxt
NEWARRAY: ; address 1012
.entry 188 ; newarray
  nop opd
  ldo
  ldi 11
  xor
  bz NEWARRAY_LONG
  ldi 0
  stm 3
  jmp NEWARRAY_SIZED
NEWARRAY_LONG: ; address 1020
  ldi 1
  stm 3
NEWARRAY_SIZED: ; address 1022
  ldi 5
  stmra
  wait
  ldmrd
  ldo
  add
  ldi 4
  sub
  stmra
  wait
  ldmrd
  stm 0
  jmp ALLOCATE_ARRAY
ANEWARRAY: ; address 1035
.entry 189 ; anewarray
  nop opd
  nop opd
  ldo
  dup
  add
  ldm 24
  add
  ldi 1
  add
  stmra
  wait
  ldmrd
  stm 0
  ldi 0
  stm 3
ALLOCATE_ARRAY: ; address 1050
  stm 1
  ldm 1
  ldi 0
  slt
  bnz RAISE_SIZE
  ldm 27
  ldm 1
  sltu
  bnz RAISE_MEMORY
  ldm 26
  ldi 2
  add
  ldm 1
  ldm 3
  shl
  add
  stm 2
  ldm 27
  ldm 2
  sltu
  bnz RAISE_MEMORY
  ldm 26
  stmwa
  ldm 0
  stmwd
  wait
  ldm 26
  ldi 1
  add
  stmwa
  ldm 1
  stmwd
  wait
  ldm 26
  ldm 2
  stm 26 nxt
CHECKCAST: ; address 1086
.entry 192 ; checkcast
  nop opd
  nop opd
  dup
  stm 0
  ldm 0
  bz CAST_PASSES
  ldo
  dup
  add
  ldm 24
  add
  stmra
  wait
  ldmrd
  stmra
  wait
  ldmrd
  stm 1
  ldm 0
  stmra
  wait
  ldmrd
  stm 2
  ldm 2
  ldi 5
  add
  ldm 1
  ldi 5
  ushr
  add
  stmra
  wait
  ldmrd
  ldm 1
  ushr
  ldi 1
  and
  bz RAISE_CAST
CAST_PASSES: ; address 1124
  nop nxt
INSTANCEOF: ; address 1125
.entry 193 ; instanceof
  nop opd
  nop opd
  stm 0
  ldm 0
  bz INSTANCEOF_NULL
  ldo
  dup
  add
  ldm 24
  add
  stmra
  wait
  ldmrd
  stmra
  wait
  ldmrd
  stm 1
  ldm 0
  stmra
  wait
  ldmrd
  stm 2
  ldm 2
  ldi 5
  add
  ldm 1
  ldi 5
  ushr
  add
  stmra
  wait
  ldmrd
  ldm 1
  ushr
  ldi 1
  and
  nop nxt
INSTANCEOF_NULL: ; address 1162
  ldi 0 nxt
MONITORENTER: ; address 1163
.entry 194 ; monitorenter
.entry 195 ; monitorexit
  bz RAISE_NULL
  nop nxt
INVOKEVIRTUAL: ; address 1165
.entry 182 ; invokevirtual
  nop opd
  nop opd
  ldo
  dup
  add
  ldm 24
  add
  ldi 1
  add
  stmra
  wait
  ldmrd
  stm 2
  ldm 2
  ldi 24
  ushr
  stm 1
  ldsp
  ldm 1
  sub
  stm 6
  dup
  dup
  pop
  pop
  ldm 6
  ldi 3
  add
  star
  ldmi
  stm 3
  ldm 3
  bz RAISE_NULL
  ldm 3
  stmra
  wait
  ldmrd
  ldi 3
  add
  stmra
  wait
  ldmrd
  ldm 2
  ldi 12
  and
  add
  stmra
  wait
  ldmrd
  stm 0
  jmp INVOKE
INVOKEINTERFACE: ; address 1216
.entry 185 ; invokeinterface
  nop opd
  nop opd
  ldo
  dup
  add
  ldm 24
  add
  ldi 1
  add
  stmra
  wait
  ldmrd
  stm 2
  ldm 2
  ldi 24
  ushr
  stm 1
  ldsp
  ldm 1
  sub
  stm 6
  dup
  dup
  pop
  pop
  ldm 6
  ldi 3
  add
  star
  ldmi
  stm 3
  ldm 3
  bz RAISE_NULL
  ldm 3
  stmra
  wait
  ldmrd
  ldi 4
  add
  stmra
  wait
  ldmrd
  ldm 2
  ldi 12
  and
  add
  stmra
  wait
  ldmrd
  stm 0
  ldm 0
  bz RAISE_CHANGE
  nop opd
  nop opd
  jmp INVOKE
INVOKESPECIAL: ; address 1271
.entry 183 ; invokespecial
  nop opd
  nop opd
  ldo
  dup
  add
  ldm 24
  add
  stmra
  wait
  ldmrd
  stm 0
  ldm 0
  ldi 1
  add
  stmra
  wait
  ldmrd
  ldi 16
  ushr
  stm 1
  ldsp
  ldm 1
  sub
  stm 6
  dup
  dup
  pop
  pop
  ldm 6
  ldi 3
  add
  star
  ldmi
  stm 3
  ldm 3
  bz RAISE_NULL
  jmp INVOKE
INVOKESTATIC: ; address 1308
.entry 184 ; invokestatic
  nop opd
  nop opd
  ldo
  dup
  add
  ldm 24
  add
  stmra
  wait
  ldmrd
  stm 0
  ldm 0
  ldi 1
  add
  stmra
  wait
  ldmrd
  ldi 16
  ushr
  stm 1
  ldsp
  ldm 1
  sub
  stm 6
INVOKE: ; address 1332
  ldm 0
  stmra
  wait
  ldmrd
  stm 4
  ldm 4
  ldi 10
  and
  ldm 4
  ldi 16
  ushr
  stm 4
  ldm 4
  add
  ldi 5
  add
  ldm 28
  add
  stm 5
  ldm 29
  ldm 5
  sltu
  bnz RAISE_OVERFLOW
  ldm 0
  ldi 2
  add
  stmra
  wait
  ldmrd
  stm 7
  ldm 5
  stm 28
  ldvp
  stm 8
  ldm 6
  ldi 3
  add
  stvp
  ldvp
  ldm 4
  add
  ldi 1
  sub
  stm 15
  dup
  dup
  pop
  pop
  ldm 15
  stsp
  pop
  pop
  ldm 6
  ldjpc
  ldm 8
  ldm 24
  ldm 25
  ldm 7
  stm 24
  ldm 0
  stm 25
  ldm 0
  stbc
  ldi 0
  stjpc nxt
RETURN: ; address 1397
.entry 177 ; return
  hltb
  ldm 25
  stmra
  wait
  ldmrd
  stm 4
  ldm 28
  ldm 4
  ldi 10
  and
  sub
  ldm 4
  ldi 16
  ushr
  stm 4
  ldm 4
  sub
  ldi 5
  sub
  stm 28
  ldvp
  ldm 4
  add
  ldi 4
  add
  stm 15
  dup
  dup
  pop
  pop
  ldm 15
  stsp
  pop
  pop
  stm 25
  stm 24
  stvp
  stjpc
  ldi 2
  add
  stm 15
  dup
  dup
  pop
  pop
  ldm 15
  stsp
  pop
  pop
  ldm 25
  stbc
  nop nxt
IRETURN: ; address 1449
.entry 172 ; ireturn
.entry 176 ; areturn
  stm 0
  ldm 25
  stmra
  wait
  ldmrd
  stm 4
  ldm 28
  ldm 4
  ldi 10
  and
  sub
  ldm 4
  ldi 16
  ushr
  stm 4
  ldm 4
  sub
  ldi 5
  sub
  stm 28
  ldvp
  ldm 4
  add
  ldi 4
  add
  stm 15
  dup
  dup
  pop
  pop
  ldm 15
  stsp
  pop
  pop
  stm 25
  stm 24
  stvp
  stjpc
  ldi 2
  add
  stm 15
  dup
  dup
  pop
  pop
  ldm 15
  stsp
  pop
  pop
  ldm 25
  stbc
  ldm 0 nxt
LRETURN: ; address 1501
.entry 173 ; lreturn
  stm 0
  stm 1
  ldm 25
  stmra
  wait
  ldmrd
  stm 4
  ldm 28
  ldm 4
  ldi 10
  and
  sub
  ldm 4
  ldi 16
  ushr
  stm 4
  ldm 4
  sub
  ldi 5
  sub
  stm 28
  ldvp
  ldm 4
  add
  ldi 4
  add
  stm 15
  dup
  dup
  pop
  pop
  ldm 15
  stsp
  pop
  pop
  stm 25
  stm 24
  stvp
  stjpc
  ldi 2
  add
  stm 15
  dup
  dup
  pop
  pop
  ldm 15
  stsp
  pop
  pop
  ldm 25
  stbc
  ldm 1
  ldm 0 nxt
IMPDEP1: ; address 1555
.entry 254 ; impdep1
  ldin nxt
IMPDEP2: ; address 1556
.entry 255 ; impdep2
  stout nxt
ATHROW: ; address 1557
.entry 191 ; athrow
  stm 0
  ldm 0
  bz RAISE_NULL
  ldm 0
  stm 31
  jmp RAISE
RAISE_ARITHMETIC: ; address 1563
  ldi 0
  jmp RAISE_OBJECT
RAISE_INDEX: ; address 1565
  ldi 1
  jmp RAISE_OBJECT
RAISE_STORE: ; address 1567
  ldi 2
  jmp RAISE_OBJECT
RAISE_CAST: ; address 1569
  ldi 3
  jmp RAISE_OBJECT
RAISE_CHANGE: ; address 1571
  ldi 4
  jmp RAISE_OBJECT
RAISE_SIZE: ; address 1573
  ldi 5
  jmp RAISE_OBJECT
RAISE_NULL: ; address 1575
  ldi 6
  jmp RAISE_OBJECT
RAISE_MEMORY: ; address 1577
  ldi 7
  jmp RAISE_OBJECT
RAISE_OVERFLOW: ; address 1579
  ldi 8
RAISE_OBJECT: ; address 1580
  ldm 30
  add
  stmra
  wait
  ldmrd
  stm 31
RAISE: ; address 1586
.raise
  ldm 31
  stmra
  wait
  ldmrd
  stm 10
  ldm 25
  ldi 3
  add
  stmra
  wait
  ldmrd
  stm 11
  ldm 25
  ldi 4
  add
  stm 12
HANDLER_TURN: ; address 1602
  ldm 11
  bz DROP_FRAME
  ldm 12
  stmra
  wait
  ldmrd
  stm 13
  ldm 13
  ldi 16
  ushr
  ldjpc
  slt
  bz HANDLER_NEXT
  ldm 13
  ldi 10
  and
  ldjpc
  slt
  bnz HANDLER_NEXT
  ldm 12
  ldi 2
  add
  stmra
  wait
  ldmrd
  stm 14
  ldm 14
  bz HANDLER_FOUND
  ldm 14
  ldi 1
  sub
  stm 14
  ldm 10
  ldi 5
  add
  ldm 14
  ldi 5
  ushr
  add
  stmra
  wait
  ldmrd
  ldm 14
  ushr
  ldi 1
  and
  bnz HANDLER_FOUND
HANDLER_NEXT: ; address 1649
  ldm 12
  ldi 3
  add
  stm 12
  ldm 11
  ldi 1
  sub
  stm 11
.turns entries
  jmp HANDLER_TURN
HANDLER_FOUND: ; address 1658
  ldm 12
  ldi 1
  add
  stmra
  wait
  ldmrd
  stm 13
  ldm 25
  stmra
  wait
  ldmrd
  ldi 16
  ushr
  ldvp
  add
  ldi 4
  add
  stm 15
  dup
  dup
  pop
  pop
  ldm 15
  stsp
  pop
  pop
  ldm 25
  stbc
  ldm 13
  stjpc
  ldm 31 nxt
DROP_FRAME: ; address 1689
  hltu
  ldm 25
  stmra
  wait
  ldmrd
  stm 4
  ldm 28
  ldm 4
  ldi 10
  and
  sub
  ldm 4
  ldi 16
  ushr
  stm 4
  ldm 4
  sub
  ldi 5
  sub
  stm 28
  ldvp
  ldm 4
  add
  ldi 4
  add
  stm 15
  dup
  dup
  pop
  pop
  ldm 15
  stsp
  pop
  pop
  stm 25
  stm 24
  stvp
  stjpc
  ldi 2
  add
  stm 15
  dup
  dup
  pop
  pop
  ldm 15
  stsp
  pop
  pop
.turns 1
  jmp RAISE
