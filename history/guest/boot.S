// The entries of the guest: from a monitor that knows multiboot, or PVH (-DPVH), and of each further processor, which begins in real mode.
#ifdef PVH
.section .note.pvh, "a", @note
.align 4
.long 4, 8, 18 // the entry in 32 bits
.asciz "Xen"
.long start, 0
#else
.section .multiboot, "a"
.align 4
.long 0x1BADB002, 0, -0x1BADB002
#endif

.text
.globl start
start:
  cli
  mov $first_stack, %esp
  lgdt table
  ljmp $8, $1f
1:
  mov $16, %cx
  mov %cx, %ds
  mov %cx, %es
  mov %cx, %ss
  push %ebx
  push %eax
  call run_first
2:
  hlt
  jmp 2b

// It is copied to 0x8000, from where a processor begins.
.globl other_start, other_end
.code16
other_start:
  cli
  xor %ax, %ax
  mov %ax, %ds
  lgdtl 0x8000 + (3f - other_start)
  mov %cr0, %eax
  or $1, %al
  mov %eax, %cr0
  ljmpl $8, $other
3:
  .word 23
  .long entries
other_end:

.code32
other:
  mov $16, %ax
  mov %ax, %ds
  mov %ax, %es
  mov %ax, %ss
  mov $1, %eax
  lock xadd %eax, others
  inc %eax
  cmp $16, %eax
  jae 4f
  mov %eax, %ecx
  shl $12, %ecx
  lea stacks(%ecx), %esp
  push %eax
  call run_other
4:
  hlt
  jmp 4b

.align 8
entries:
  .quad 0, 0x00cf9a000000ffff, 0x00cf92000000ffff
table:
  .word 23
  .long entries

.bss
.align 4096
  .skip 4096
first_stack:
stacks: // that of processor K ends K pages after this
  .skip 15 * 4096
