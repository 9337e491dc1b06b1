/* Functions for Arm whose stack is known by hand. Above each stands what deepest.awk has to say of it: BYTES, and their path, or why it is refused. */
.text
/* leaf: 0 leaf 0 */
leaf:
    ret

/* frame: 80 frame 80 */
frame:
    stp x29, x30, [sp, #-32]!
    stp x20, x19, [sp, #16]
    sub sp, sp, #48
    str x0, [sp, #40]
    add sp, sp, #48
    ldp x20, x19, [sp, #16]
    ldp x29, x30, [sp], #32
    ret

/* below: 64 below 64 */
below:
    stur x0, [sp, #-64]
    ldur x0, [sp, #-64]
    ret

/* caller: 96 caller 16 > frame 80 */
caller:
    str x30, [sp, #-16]!
    bl leaf
    bl frame
    bl leaf
    ldr x30, [sp], #16
    ret

/* steps: 12352 steps 12352 */
steps:
    stp x29, x30, [sp, #-48]!
    sub x9, sp, #3, lsl #12
    stp x20, x19, [sp, #16]
    mov x29, sp
1:
    sub sp, sp, #3072
    cmp sp, x9
    str xzr, [sp]
    b.ne 1b
    sub sp, sp, #16
    str x0, [sp, #8]
    add sp, sp, #3, lsl #12
    add sp, sp, #16
    ldp x20, x19, [sp, #16]
    ldp x29, x30, [sp], #48
    ret

/* a size of which nothing is known */
/* steps_to_x9: refused: more is taken off the stack */
steps_to_x9:
    mov x9, x0
1:
    sub sp, sp, #3072
    cmp sp, x9
    str xzr, [sp]
    b.ne 1b
    add sp, sp, #3, lsl #12
    ret

/* nothing of its own is left where frame begins */
/* in_its_place: 80 in_its_place 0 > frame 80 */
in_its_place:
    str x30, [sp, #-16]!
    ldr x30, [sp], #16
    b frame

/* on the other way there is no frame */
/* one_way: 96 one_way 16 > frame 80 */
one_way:
    cbz w0, 1f
    str x30, [sp, #-16]!
    bl frame
    ldr x30, [sp], #16
1:
    ret

/* given: 16 given 0, and 16 that it is handed */
given:
    ldr x0, [sp]
    ldr x1, [sp, #8]
    ret

/* what given is handed, this one was handed */
/* passes_on: 16 passes_on 0, and 16 that it is handed */
passes_on:
    add x0, x0, #1
    b given

/* two_at_once: 32 two_at_once 0, and 32 that it is handed */
two_at_once:
    ldp q0, q1, [sp]
    ret

/* its name has a nop in it */
/* canopy: 1008 canopy 1008 */
canopy:
    sub sp, sp, #1008
    add sp, sp, #1008
    ret

/* by_table: 1024 by_table 16 > canopy 1008 */
by_table:
    str x30, [sp, #-16]!
    adrp x8, 3f
    add x8, x8, :lo12:3f
    ldrsw x9, [x8, x0, lsl #2]
    add x8, x8, x9
    mov x1, x0
    br x8
1:
    bl canopy
    ldr x30, [sp], #16
    ret
2:
    bl frame
    ldr x30, [sp], #16
    ret
    .section .rodata
    .p2align 2
3:
    .word 1b - 3b, 2b - 3b
    .text

/* pages: 8224 pages 8224 */
pages:
    sub sp, sp, #2, lsl #12
    sub sp, sp, #32
    str x0, [sp]
    add sp, sp, #32
    add sp, sp, #2, lsl #12
    ret

/* a block */
/* copy: 528 copy 528 */
copy:
    str x19, [sp, #-16]!
    sub sp, sp, #512
    mov x8, sp
    mov x9, #512
1:
    ldr x10, [x0], #8
    str x10, [x8], #8
    subs x9, x9, #8
    b.ne 1b
    add sp, sp, #512
    ldr x19, [sp], #16
    ret

/* what it calls never returns */
/* ends_there: 96 ends_there 16 > frame 80 */
ends_there:
    cbz w0, 1f
    ret
1:
    str x30, [sp, #-16]!
    bl frame
    nop

/* asks_outside: 16 asks_outside 16; outside: memset */
asks_outside:
    str x30, [sp, #-16]!
    bl memset
    ldr x30, [sp], #16
    ret

/* itself: refused: it calls itself */
itself:
    str x30, [sp, #-16]!
    bl itself
    ldr x30, [sp], #16
    ret

/* one_of_two: refused: it calls itself */
one_of_two:
    str x30, [sp, #-16]!
    bl other_of_two
    ldr x30, [sp], #16
    ret

/* other_of_two: refused: it calls itself */
other_of_two:
    b one_of_two

/* by_register: refused: a call that hangs on a register */
by_register:
    str x30, [sp, #-16]!
    blr x0
    ldr x30, [sp], #16
    ret

/* by_pointer: refused: a jump that hangs on a register */
by_pointer:
    ldr x1, [x0, x1, lsl #3]
    br x1

/* by_frame_pointer: 56 by_frame_pointer 48, and 8 that it is handed */
by_frame_pointer:
    sub sp, sp, #48
    stp x29, x30, [sp, #32]
    add x29, sp, #32
    stur x0, [x29, #-24]
    ldr x0, [x29, #16]
    ldp x29, x30, [sp, #32]
    add sp, sp, #48
    ret

/* step_by_register: refused: an instruction that is not understood */
step_by_register:
    ld1 {v0.16b}, [sp], x1
    ret

/* as_asked: refused: an instruction that is not understood */
as_asked:
    mov x8, sp
    sub x9, x8, x0
    mov sp, x9
    mov sp, x8
    ret

/* uneven: refused: two ways meet here */
uneven:
    cbz w0, 1f
    sub sp, sp, #16
1:
    add sp, sp, #16
    ret

/* left_over: refused: it returns at 16 bytes */
left_over:
    sub sp, sp, #16
    ret

/* leaves_early: refused: it leaves for another function at 16 bytes */
leaves_early:
    sub sp, sp, #16
    b frame

/* takes_more: refused: more is taken off the stack than was put there */
takes_more:
    add sp, sp, #16
    ret

/* points_to_given: refused: it points to what it is handed */
points_to_given:
    mov x0, sp
    ret

/* leads_nowhere: refused: a jump by a table that leads nowhere */
leads_nowhere:
    add x8, x8, x0
    br x8

/* into_the_middle: refused: it leads into the middle of frame */
into_the_middle:
    str x30, [sp, #-16]!
    bl frame + 4
    ldr x30, [sp], #16
    ret

/* not_reached: refused: no way leads here */
not_reached:
    ret
    add x0, x0, #1
    ret

/* not_known: refused: an instruction that llvm-objdump does not know */
not_known:
    .inst 0xffffffff
    ret

/* runs_on: refused: the function runs on into the next one */
runs_on:
    add x0, x0, #1

/* last: 0 last 0 */
last:
    ret
