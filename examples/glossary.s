# Sorts a glossary, measures its words, and calls each routine of a table on each pair of numbers.
#
# The text is in the language of `cfpp asm`, and GNU as reads it too.

    .globl _start
    .text
_start:
    la s0, glossary
    la s1, glossary_end
    call sort
    la s0, glossary
    call print_all
    call count_letters
    call apply_all
    call checksum
    li a0, 0
    li a7, 93
    ecall

# Sorts the addresses of strings from s0 to s1, by their strings: each is put in front of the greater ones before it.
sort:
    addi sp, sp, -32
    sw ra, 28(sp)
    sw s2, 24(sp)
    sw s3, 20(sp)
    sw s4, 16(sp)
    addi s2, s0, 4          # the next one
sort_next:
    beq s2, s1, sorted
    lw s4, 0(s2)
    mv s3, s2               # where it goes
sort_shift:
    beq s3, s0, sort_place
    lw a0, -4(s3)
    mv a1, s4
    call compare
    bltz a0, sort_place
    beqz a0, sort_place
    lw t0, -4(s3)
    sw t0, 0(s3)
    addi s3, s3, -4
    j sort_shift
sort_place:
    sw s4, 0(s3)
    addi s2, s2, 4
    j sort_next
sorted:
    lw ra, 28(sp)
    lw s2, 24(sp)
    lw s3, 20(sp)
    lw s4, 16(sp)
    addi sp, sp, 32
    ret

# Compares the strings at a0 and a1: below 0, 0 or above 0.
compare:
    lbu t0, 0(a0)
    lbu t1, 0(a1)
    bne t0, t1, compared
    beqz t0, compared
    addi a0, a0, 1
    addi a1, a1, 1
    j compare
compared:
    sub a0, t0, t1
    ret

# The length of the string at a0.
length:
    mv t0, a0
length_next:
    lbu t1, 0(t0)
    beqz t1, length_found
    addi t0, t0, 1
    j length_next
length_found:
    sub a0, t0, a0
    ret

# Writes the strings from s0 to s1, each with its length and itself turned round.
print_all:
    addi sp, sp, -16
    sw ra, 12(sp)
    sw s2, 8(sp)
    mv s2, s0
print_next:
    beq s2, s1, printed
    lw a0, 0(s2)
    call print
    li a0, 32
    call print_letter
    lw a0, 0(s2)
    call length
    call print_number
    li a0, 32
    call print_letter
    lw a0, 0(s2)
    call turn_round
    la a0, buffer
    call print
    li a0, 10
    call print_letter
    addi s2, s2, 4
    j print_next
printed:
    lw ra, 12(sp)
    lw s2, 8(sp)
    addi sp, sp, 16
    ret

# Puts the string at a0 into the buffer, its last letter first.
turn_round:
    addi sp, sp, -16
    sw ra, 12(sp)
    sw s3, 8(sp)
    mv s3, a0
    call length
    la t1, buffer
    add t2, s3, a0
turn_next:
    beq t2, s3, turned
    addi t2, t2, -1
    lb t3, 0(t2)
    sb t3, 0(t1)
    addi t1, t1, 1
    j turn_next
turned:
    sb zero, 0(t1)
    lw ra, 12(sp)
    lw s3, 8(sp)
    addi sp, sp, 16
    ret

# Counts each letter of the glossary, and writes those that stand there more than four times.
count_letters:
    addi sp, sp, -16
    sw ra, 12(sp)
    sw s2, 8(sp)
    sw s3, 4(sp)
    la s2, glossary
    la t4, counts
count_string:
    beq s2, s1, counted
    lw t0, 0(s2)
count_letter:
    lbu t1, 0(t0)
    beqz t1, count_next
    addi t1, t1, -97
    slli t1, t1, 1
    add t1, t1, t4
    lhu t2, 0(t1)
    addi t2, t2, 1
    sh t2, 0(t1)
    addi t0, t0, 1
    j count_letter
count_next:
    addi s2, s2, 4
    j count_string
counted:
    li s2, 0
show_letter:
    li t0, 26
    bgeu s2, t0, shown
    la t1, counts
    slli t2, s2, 1
    add t1, t1, t2
    lh s3, 0(t1)
    slti t3, s3, 5
    bnez t3, show_next
    addi a0, s2, 97
    call print_letter
    mv a0, s3
    call print_number
    li a0, 32
    call print_letter
show_next:
    addi s2, s2, 1
    j show_letter
shown:
    li a0, 10
    call print_letter
    lw ra, 12(sp)
    lw s2, 8(sp)
    lw s3, 4(sp)
    addi sp, sp, 16
    ret

# Calls each routine of the table on each pair of numbers, and writes the results.
apply_all:
    addi sp, sp, -16
    sw ra, 12(sp)
    sw s2, 8(sp)
    sw s3, 4(sp)
    la s2, pairs
apply_pair:
    la t0, pairs_end
    beq s2, t0, applied
    la s3, routines
apply_routine:
    lw t0, 0(s3)
    beqz t0, apply_next
    lw a0, 0(s2)
    lw a1, 4(s2)
    jalr ra, 0(t0)
    call print_word
    li a0, 32
    call print_letter
    addi s3, s3, 4
    j apply_routine
apply_next:
    li a0, 10
    call print_letter
    addi s2, s2, 8
    j apply_pair
applied:
    lw ra, 12(sp)
    lw s2, 8(sp)
    lw s3, 4(sp)
    addi sp, sp, 16
    ret

sum:
    add a0, a0, a1
    ret
difference:
    sub a0, a0, a1
    ret
both:
    and a0, a0, a1
    ret
either:
    or a0, a0, a1
    ret
one:
    xor a0, a0, a1
    ret
neither:
    or a0, a0, a1
    not a0, a0
    ret
opposite:
    neg a0, a1
    ret
up:
    sll a0, a0, a1
    ret
down:
    sra a0, a0, a1
    ret
product:
    mv t0, a0               # without multiplication: the shifted sums
    li a0, 0
product_next:
    beqz a1, product_found
    andi t1, a1, 1
    beqz t1, product_shift
    add a0, a0, t0
product_shift:
    slli t0, t0, 1
    srli a1, a1, 1
    j product_next
product_found:
    ret

# Writes a checksum of the glossary's strings.
checksum:
    addi sp, sp, -16
    sw ra, 12(sp)
    la t0, strings
    la t1, strings_end
    li a0, 5381
checksum_next:
    beq t0, t1, checksum_found
    lbu t2, 0(t0)
    slli t3, a0, 5
    add a0, a0, t3
    xor a0, a0, t2
    addi t0, t0, 1
    j checksum_next
checksum_found:
    call print_word
    li a0, 10
    call print_letter
    lw ra, 12(sp)
    addi sp, sp, 16
    ret

# Writes the string at a0.
print:
    addi sp, sp, -16
    sw ra, 12(sp)
    sw a0, 8(sp)
    call length
    mv a2, a0
    lw a1, 8(sp)
    call write
    lw ra, 12(sp)
    addi sp, sp, 16
    ret

# Writes the letter in a0.
print_letter:
    addi sp, sp, -16
    sw ra, 12(sp)
    sb a0, 8(sp)
    addi a1, sp, 8
    li a2, 1
    call write
    lw ra, 12(sp)
    addi sp, sp, 16
    ret

# Writes a2 bytes from a1 on.
write:
    li a0, 1
    li a7, 64
    ecall
    ret

# Writes the number in a0 in decimal: it is below 1000.
print_number:
    addi sp, sp, -16
    sw ra, 12(sp)
    sw s2, 8(sp)
    sw s3, 4(sp)
    mv s2, a0
    li s3, 0                # not 0 once a digit was written
    li a1, 100
    call print_digit
    li a1, 10
    call print_digit
    li s3, 1
    li a1, 1
    call print_digit
    lw ra, 12(sp)
    lw s2, 8(sp)
    lw s3, 4(sp)
    addi sp, sp, 16
    ret

# Writes how often a1 goes into s2, which is left with the rest.
print_digit:
    li a0, 48
digit_next:
    bltu s2, a1, digit_found
    sub s2, s2, a1
    addi a0, a0, 1
    li s3, 1
    j digit_next
digit_found:
    bnez s3, print_letter
    ret

# Writes the word in a0 in eight hexadecimal digits.
print_word:
    addi sp, sp, -32
    sw ra, 28(sp)
    addi t0, sp, 8
    addi t1, sp, 16
word_next:
    srli t2, a0, 28
    slli a0, a0, 4
    sltiu t3, t2, 10
    bnez t3, word_digit
    addi t2, t2, 39
word_digit:
    addi t2, t2, 48
    sb t2, 0(t0)
    addi t0, t0, 1
    bne t0, t1, word_next
    addi a1, sp, 8
    li a2, 8
    call write
    lw ra, 28(sp)
    addi sp, sp, 32
    ret

    .data
glossary:
    .word w1, w2, w3, w4, w5, w6, w7, w8, w9, w10, w11, w12
glossary_end:
routines:
    .word sum, difference, both, either, one, neither
    .word opposite, up, down, product
    .word 0
pairs:
    .word 7, 3
    .word 0xdeadbeef, 16
    .word -1, 2147483647
    .word 4294967295, -2
pairs_end:
counts:
    .space 52
strings:
w1: .asciz "pipeline"
w2: .asciz "counterflow"
w3: .asciz "result"
w4: .asciz "instruction"
w5: .asciz "garner"
w6: .asciz "kill"
w7: .asciz "siding"
w8: .asciz "launch"
w9: .asciz "recover"
w10: .asciz "binding"
w11: .asciz "stage"
w12: .asciz "turn"
strings_end:
    .align 2
buffer:
    .space 16
