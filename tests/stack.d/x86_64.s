/* Functions for x86-64 whose stack is known by hand. Above each stands what deepest.awk has to say of it: BYTES, and their path, or why it is refused. */
.text
/* leaf: 8 leaf 8 */
leaf:
    retq

/* frame: 64 frame 64 */
frame:
    pushq %rbp
    pushq %rbx
    subq $40, %rsp
    movq %rdi, 32(%rsp)
    addq $40, %rsp
    popq %rbx
    popq %rbp
    retq

/* all 128 bytes below the pointer */
/* below: 136 below 136 */
below:
    movq %rdi, -128(%rsp)
    movq -128(%rsp), %rax
    retq

/* what is added to the pointer is not known, so all 128 below it are counted */
/* runs_up: 136 runs_up 136 */
runs_up:
    movq $-112, %rax
1:
    movq %rdi, -8(%rsp,%rax)
    addq $8, %rax
    jne 1b
    retq

/* the same by a pointer */
/* points: 136 points 136 */
points:
    leaq -8(%rsp), %rcx
    movq %rdi, -112(%rcx)
    retq

/* caller: 80 caller 16 > frame 64 */
caller:
    pushq %rax
    callq leaf
    callq frame
    callq leaf
    popq %rax
    retq

/* nothing of its own is left where frame begins */
/* in_its_place: 64 in_its_place 0 > frame 64 */
in_its_place:
    pushq %rax
    popq %rcx
    jmp frame

/* on the other way there is no frame */
/* one_way: 144 one_way 136 > leaf 8 */
one_way:
    testl %edi, %edi
    je 1f
    addq $-128, %rsp
    callq leaf
    leaq 128(%rsp), %rsp
1:
    retq

/* given: 24 given 8, and 16 that it is handed */
given:
    movq 8(%rsp), %rax
    addq 16(%rsp), %rax
    retq

/* what given is handed, this one was handed */
/* passes_on: 24 passes_on 8, and 16 that it is handed */
passes_on:
    incq %rdi
    jmp given

/* two_at_once: 24 two_at_once 8, and 16 that it is handed */
two_at_once:
    movups 8(%rsp), %xmm0
    retq

/* four_at_once: 40 four_at_once 8, and 32 that it is handed */
four_at_once:
    vmovups 8(%rsp), %ymm0
    retq

/* long_double: 24 long_double 8, and 16 that it is handed */
long_double:
    fldt 8(%rsp)
    retq

/* hands_on: 56 hands_on 32 > given 8, and 16 that it is handed */
hands_on:
    pushq %rax
    pushq 24(%rsp)
    pushq 24(%rsp)
    callq given
    addq $24, %rsp
    retq

/* its name has a nop in it */
/* canopy: 1008 canopy 1008 */
canopy:
    subq $1000, %rsp
    addq $1000, %rsp
    retq

/* by_table: 1024 by_table 16 > canopy 1008 */
by_table:
    pushq %rbx
    leaq 3f(%rip), %rcx
    movslq (%rcx,%rdi,4), %rax
    addq %rcx, %rax
    movq %rdi, %rsi
    jmpq *%rax
1:
    callq canopy
    popq %rbx
    retq
2:
    callq frame
    popq %rbx
    retq
    .section .rodata
3:
    .long 1b - 3b, 2b - 3b
    .text

/* pages: 8232 pages 8232 */
pages:
    movq %rsp, %r11
    subq $8192, %r11
1:
    subq $4096, %rsp
    movq $0, (%rsp)
    cmpq %r11, %rsp
    jne 1b
    subq $32, %rsp
    addq $8224, %rsp
    retq

/* steps: 6168 steps 6168 */
steps:
    movq %rsp, %r11
    subq $6144, %r11
1:
    subq $3072, %rsp
    movq $0, (%rsp)
    cmpq %r11, %rsp
    jne 1b
    subq $16, %rsp
    addq $6160, %rsp
    retq

/* a block; 128 more below the pointer could be used */
/* copy: 648 copy 648 */
copy:
    subq $512, %rsp
    movl $512, %ecx
    movq %rdi, %rsi
    movq %rsp, %rdi
    rep movsb
    addq $512, %rsp
    retq

/* what it calls never returns */
/* ends_there: 80 ends_there 16 > frame 64 */
ends_there:
    testl %edi, %edi
    je 1f
    retq
1:
    pushq %rax
    callq frame
    nop

/* asks_outside: 24 asks_outside 16 > memset; outside: memset */
asks_outside:
    pushq %rax
    callq memset@PLT
    popq %rax
    retq

/* itself: refused: it calls itself */
itself:
    pushq %rax
    callq itself
    popq %rax
    retq

/* one_of_two: refused: it calls itself */
one_of_two:
    pushq %rax
    callq other_of_two
    popq %rax
    retq

/* other_of_two: refused: it calls itself */
other_of_two:
    jmp one_of_two

/* by_register: refused: a call that hangs on a register */
by_register:
    pushq %rax
    callq *%rdi
    popq %rax
    retq

/* by_pointer: refused: a jump that hangs on a register */
by_pointer:
    jmpq *(%rdi,%rsi,8)

/* by_handed: refused: a jump that hangs on a register */
by_handed:
    jmpq *%rdx

/* prefixed: refused: an instruction that is not understood */
prefixed:
    .byte 0xf2
    callq leaf
    retq

/* in_words: refused: an instruction that is not understood */
in_words:
    pushw %ax
    popw %ax
    retq

/* as_asked: refused: a change of the stack pointer that is not understood */
as_asked:
    subq %rdi, %rsp
    addq %rdi, %rsp
    retq

/* by_frame_pointer: refused: a frame pointer is not understood */
by_frame_pointer:
    pushq %rbp
    movq %rsp, %rbp
    movq %rdi, -64(%rbp)
    popq %rbp
    retq

/* uneven: refused: two ways meet here */
uneven:
    testl %edi, %edi
    je 1f
    pushq %rbx
1:
    popq %rbx
    retq

/* left_over: refused: it returns at 16 bytes */
left_over:
    pushq %rbx
    retq

/* leaves_early: refused: it leaves for another function at 16 bytes */
leaves_early:
    pushq %rbx
    jmp frame

/* takes_more: refused: more is taken off the stack than was put there */
takes_more:
    popq %rax
    retq

/* points_to_given: refused: it points to what it is handed */
points_to_given:
    leaq 8(%rsp), %rax
    retq

/* one_of_given: refused: it points to what it is handed */
one_of_given:
    movzbl 8(%rsp,%rdi), %eax
    retq

/* passes_on_one: refused: it points to what it is handed */
passes_on_one:
    jmp one_of_given

/* leads_nowhere: refused: a jump by a table that leads nowhere */
leads_nowhere:
    addq %rdi, %rax
    jmpq *%rax

/* two_tables: refused: two jumps by a table */
two_tables:
    testl %edi, %edi
    je 1f
    addq %rdi, %rax
    jmpq *%rax
1:
    pushq %rbx
    addq %rdi, %rax
    jmpq *%rax

/* into_the_middle: refused: it leads into the middle of frame */
into_the_middle:
    callq frame + 1
    retq

/* not_reached: refused: no way leads here */
not_reached:
    retq
    incq %rdi
    retq

/* not_known: refused: an instruction that llvm-objdump does not know */
not_known:
    .byte 0x06
    retq

/* runs_on: refused: the function runs on into the next one */
runs_on:
    incq %rdi

/* last: 8 last 8 */
last:
    retq
