# `|` stands for a line feed, `^` for a carriage return. The words were worked out by hand from the grammar of the text.
asm nop nxt|add nxt|nop opd|stm 0|stm 1|ldm 0|ldm 1|ldm 0 nxt
asm nop nop
asm jmp x
asm 
asm  a:  b: nop opd nxt ; x: y|c:|jmp a|
asm a: jmp a
asm .turns 3|a: jmp a
asm .turns pairs|nop|a: jmp a
asm .turns entries|b:|.turns pairs|a: bz b|bnz c|c:
asm a: nop|a: nop
asm a: a: nop
asm .entry 5|nop|.entry 255|.raise|stout nxt|.raise
asm .entry 5|.entry 5
asm nop|.entry 1|nop|.raise|nop|.const 0 -1|.const 31 -2147483648|.const 1 4294967295|
asm .const 0 1|.const 0 1
asm .const 32 1
asm .const 0 -0
asm .const 0 4294967296
asm .const 0 -2147483649
asm .turns 4294967296
asm .turns 4294967295
asm .turns 0|a: jmp a
asm 007: nop
asm 7: nop
asm 99999999999999999999999999: nop
asm opd: nxt: nop: jmp nop|.turns 1
asm nop	opd
asm nop^
asm nop;x
asm nop ;x
asm ;x
asm bz a opd|a:
asm nop nxt opd
asm stm 32
asm stm 031
asm stm
asm hltu|ldi 31 opd
asm .entry 256
asm foo|a:|jmp a
asm jmp a|foo|a: nop|a: nop
asm jmp b|a: foo
