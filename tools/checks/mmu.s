# The guest of tools/checks/mmu: it makes each request's access as a user would, and keeps what came of it. It runs in machine
# mode, whose own accesses are not translated. A request has eight words of 64 bits:
#     0 satp, 1 the virtual address, 2 the kind (0 load, 1 store, 2 fetch; 3, 4, 5 the same by a guest's user, over two
#     stages), 3 the awaited physical address, 4 a token to store
# and what came of it:
#     5 the trap's code; 8, a call by user mode, where the fetched code made its call, and where a load or store was done
#     6 what a load read, what lies at the awaited physical address behind a store, or what the fetched code left in a0
#     7 what mtinst says of the trap
# In front of the requests stand their number, and hgatp and vsatp for those of a guest's user.
.equ DONE, 8
.equ MPRV, 1 << 17
.equ MPP, 3 << 11
.equ MPV, 1 << 39
.equ SPVP, 1 << 8
.equ VSATP, 0x280
.equ HSTATUS, 0x600
.equ HGATP, 0x680
.equ MTINST, 0x34a
.globl _start
_start:
    li t0, -1               # user mode may reach all of physical memory
    csrw pmpaddr0, t0
    li t0, 0x1f
    csrw pmpcfg0, t0
    la t0, trapped
    csrw mtvec, t0
    la s0, requests
    ld s1, 0(s0)            # their number, and then the requests
    ld s7, 8(s0)
    ld s8, 16(s0)
    addi s0, s0, 64
next:
    beqz s1, finish
    ld t0, 0(s0)
    csrw satp, t0
    sfence.vma
    ld s2, 8(s0)
    ld s3, 16(s0)
    ld s4, 24(s0)
    ld s5, 32(s0)
    li a0, 0
    li t0, MPP
    csrc mstatus, t0        # what mret and MPRV go to is user mode
    li t1, MPRV
    li t2, 3
    bgeu s3, t2, guest
    li t2, 1
    beq s3, t2, store
    bgtu s3, t2, fetch
load:
    csrs mstatus, t1
    ld a0, 0(s2)
    csrc mstatus, t1
    j done
store:
    ld s6, 0(s4)
    csrs mstatus, t1
    sd s5, 0(s2)
    csrc mstatus, t1
    ld a0, 0(s4)
    sd s6, 0(s4)            # later requests find what lay there
done:
    li a1, DONE
    li a2, 0
    j keep
fetch:
    csrw mepc, s2
    mret
guest:
    csrw HGATP, s7
    csrw VSATP, s8
    .insn r 0x73, 0, 0x31, x0, x0, x0   # hfence.gvma
    .insn r 0x73, 0, 0x11, x0, x0, x0   # hfence.vvma
    li t0, SPVP             # hlv and hsv are of the guest's user
    csrc HSTATUS, t0
    beq s3, t2, guest_load
    li t2, 4
    bgtu s3, t2, guest_fetch
guest_store:
    ld s6, 0(s4)
    .insn r 0x73, 4, 0x37, x0, s2, s5   # hsv.d s5, (s2)
    ld a0, 0(s4)
    sd s6, 0(s4)
    j done
guest_load:
    .insn r 0x73, 4, 0x36, a0, s2, x0   # hlv.d a0, (s2)
    j done
guest_fetch:
    li t0, MPV
    csrs mstatus, t0
    j fetch
.balign 4
trapped:
    li t1, MPRV | MPV
    csrc mstatus, t1
    csrr a1, mcause
    csrr a2, MTINST
keep:
    sd a1, 40(s0)
    sd a0, 48(s0)
    sd a2, 56(s0)
    addi s0, s0, 64
    addi s1, s1, -1
    j next
finish:
    li a0, 0x18             # semihosting: the machine ends
    la a1, ended
.balign 16
    .option push
    .option norvc
    slli x0, x0, 0x1f
    ebreak
    srai x0, x0, 7
    .option pop
1:  j 1b
.balign 8
ended:
    .dword 0x20026, 0
.balign 64
requests:
