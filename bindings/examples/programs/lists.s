# A unit of version 4 with a function whose list of ranges is refused, and one of 70,000 ranges.
    .text
    .globl _start
_start:
    ret
many:
    .rept 70000
    nop
    .endr

    .section .debug_abbrev, "", @progbits
    .uleb128 1, 0x11
    .byte 1
    .uleb128 0x03, 0x08, 0x11, 0x01, 0, 0
    .uleb128 2, 0x2e
    .byte 0
    .uleb128 0x03, 0x08, 0x55, 0x17, 0, 0
    .byte 0

    .section .debug_info, "", @progbits
    .long after - before
before:
    .value 4
    .long 0
    .byte 8
    .uleb128 1
    .string "lists.s"
    .quad many
    .uleb128 2
    .string "refused"
    .long 0x7fffffff
    .uleb128 2
    .string "many"
    .long 0
    .byte 0
after:

    .section .debug_ranges, "", @progbits
    .set at, 0
    .rept 70000
    .quad at, at + 1
    .set at, at + 1
    .endr
    .quad 0, 0
