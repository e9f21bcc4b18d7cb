# The next object starts 16 bytes after a multiple of 32.
.text
.p2align 5
.skip 16
.section .note.GNU-stack,"",@progbits
