# Where a turn begins, at address 4: `tp` is set for variables of a thread (a C library's errno is one), and `handle` goes on
# with the registers that the turn began with.
    .section .text.entry, "ax"
    .globl _start
_start:
    la tp, __tls_base
    j handle
