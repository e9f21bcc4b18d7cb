# The next object starts at a multiple of 32.
.text
.p2align 5
.section .note.GNU-stack,"",@progbits
