# A guest without an operating system: each processor walks the pages from 1 MiB up to TOP, without an end. The first one stores, and writes 'B' to
# the serial line after each round; of the others the odd ones load and the even ones store, every seventh page.
#
#     as --32 --defsym TOP=0x1000000 -o boot.o boot.s && ld -m elf_i386 -Ttext 0x7c00 --oformat binary -o boot.img boot.o

        .code16
        .globl  _start
_start: cli
        xorw    %ax, %ax
        movw    %ax, %ds
        inb     $0x92, %al              # addresses above 1 MiB
        orb     $2, %al
        outb    %al, $0x92
        lgdt    table_of_segments
        movl    %cr0, %eax
        orl     $1, %eax
        movl    %eax, %cr0
        ljmp    $8, $first

# What the other processors begin with, at 0x8000.
other_start:
        cli
        xorw    %ax, %ax
        movw    %ax, %ds
        lgdt    table_of_segments
        movl    %cr0, %eax
        orl     $1, %eax
        movl    %eax, %cr0
        ljmpl   $8, $other
other_end:

        .code32
first:  movw    $16, %ax
        movw    %ax, %ds
        movw    %ax, %es
        movl    $other_start, %esi
        movl    $0x8000, %edi
        movl    $(other_end - other_start), %ecx
        rep movsb
        movl    $0x1ff, 0xfee000f0      # INIT and a start-up message to all others
        movl    $0xc4500, 0xfee00300
        movl    $10000000, %ecx
1:      decl    %ecx
        jnz     1b
        movl    $0xc4608, 0xfee00300
2:      movl    $0x100000, %ebx
3:      incb    (%ebx)
        addl    $0x1000, %ebx
        cmpl    $TOP, %ebx
        jl      3b
        movw    $0x3f8, %dx
        movb    $'B', %al
        outb    %al, %dx
        jmp     2b

other:  movw    $16, %ax
        movw    %ax, %ds
        movl    0xfee00020, %edx        # the processor's number
        shrl    $24, %edx
        movl    $0x100000, %ebx
4:      testb   $1, %dl
        jz      5f
        movb    (%ebx), %al
        jmp     6f
5:      incb    (%ebx)
6:      addl    $0x7000, %ebx
        cmpl    $TOP, %ebx
        jl      4b
        subl    $(TOP - 0x100000), %ebx
        jmp     4b

        .balign 8
segments:
        .quad   0, 0x00cf9a000000ffff, 0x00cf92000000ffff
table_of_segments:
        .word   . - segments - 1
        .long   segments
        .org    510
        .word   0xaa55
