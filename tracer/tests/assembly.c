/* Statements of the assembler. With the word `races` a child does some whose operands in C race with what its parent does;
   else a child does some of which the tracer can't know what they access, with a tag each, and the parent others, of which
   none accesses anything but its operands. */
#include <cilk/cilk.h>
#include <stdio.h>
#include <string.h>

int cell, cells[4], counted, updated, updated_too, kept, set, barred, shown, taken, both[2];
long wide;
static volatile int sink;
unsigned char table[256];
void whole(void);

/* ---- What isn't known ---- */

static void go_by_registers(int *at) {
    long n = 1;
    int own = 1, *to = cells;
    __asm__ volatile("movl $1, (%0)" : : "r"(at) : "memory");                      /* [unseen] */
    __asm__ volatile("leaq %0, %%rax; incl (%%rax)" : "+m"(own) : : "rax");        /* [unseen] */
    __asm__ volatile("rep stosl" : "+D"(to), "+c"(n) : "a"(0) : "memory");         /* [unseen] */
    __asm__ volatile("LODSL" : "=a"(n) : "S"(cells) : "memory");                   /* [unseen] */
    __asm__ volatile("xlatb" : "=a"(n) : "0"(0), "b"(table));                      /* [unseen] */
    __asm__ volatile("maskmovdqu %%xmm1, %%xmm0" : : "D"(table) : "memory");       /* [unseen] */
    __asm__ volatile("incl %a0" : : "r"(at) : "memory");                           /* [unseen] */
    __asm__ volatile("movl %%fs:0, %%eax" : : : "eax");                            /* [unseen] */
    __asm__ volatile("movq %%rsp, %%rax; movq %%rax, %%rsp" : : : "rax");          /* [unseen] */
}

static void go_by_names(void) {
    __asm__ volatile("incl cell");                                                 /* [unseen] */
    __asm__ volatile("incl\tcell" : : : "memory");                                 /* [unseen] */
    __asm__("\n\tlock\n\tincl\tcell\n");                                           /* [unseen] */
    __asm__ volatile("INCL cell" : : : "memory");                                  /* [unseen] */
    __asm__ volatile("incl 4+cells" : : : "memory");                               /* [unseen] */
    __asm__ volatile("addl $1, cells+2*4" : : : "memory");                         /* [unseen] */
    __asm__ volatile("movl %%ds:cell, %%eax" : : : "eax");                         /* [unseen] */
    __asm__ volatile("{incl cell|inc DWORD PTR cell}" : : : "memory");             /* [unseen] */
    __asm__ volatile("pushq wide; popq wide");                                     /* [unseen] */
    __asm__ volatile("1:\tnop; 2: incl cell # a comment");                         /* [unseen] */
    if (cell)
        __asm__("incl cell");                                                      /* [unseen] */
    for (int i = 0; i < 2; i++) __asm__("incl cell");                              /* [unseen] */
}

static void go_beyond_operands(void) {
    int own[4] = {0};
    __asm__ volatile("incl %c0" : : "i"(&cell) : "memory");                        /* [unseen] */
    __asm__ volatile("movl 4+%0, %%eax" : : "m"(cells[0]) : "eax");                /* [unseen] */
    __asm__ volatile("lock; btsl %1, %0" : "+m"(own[0]) : "r"(40));                /* [unseen] */
    __asm__ volatile("movups %0, %%xmm1" : : "m"(own[0]) : "xmm1");                /* [unseen] */
    __asm__ volatile(".byte 0x90");                                                /* [unseen] */
}

__attribute__((naked)) static void naked(void) { __asm__("incl cell\n\tret"); }    /* [unseen] */
__attribute__((naked)) static void naked_too(void) { __asm__("incl %c0\n\tret" : : "i"(&cell)); } /* [unseen] */
__asm__("\t.text\nwhole:\n\tincl\tcell\n\tret\n");                                 /* [unseen] */
__asm__(".macro bump\nincl cell\n.endm");                                          /* [unseen] */

/* ---- What is ---- */

int named(int) __asm__("cell_of");
__asm__(".globl cell_of\n\t.type cell_of, @function\ncell_of:\n\tleal 1(%rdi), %eax\n\tret\n\t.size cell_of, .-cell_of\n");
__asm__(".pushsection .rodata\nsome: .long 1, 2\n\t.asciz \"(%rax)\"\n.popsection\n");

static long is_known(void) {
    unsigned a = 1, b = 2, c = 0, d = 0, own[4] = {0};
    long n = 3, more = 0;
    double x = 4;
    register long bound __asm__("r12") = 5;
    _Alignas(16) int wide_enough[4] = {0};
    __asm__ volatile("");
    __asm__ volatile("" : : : "memory");
    __asm__ volatile("rep; nop");
    __asm__ volatile("pause\n\tmfence" : : : "memory");
    __asm__ volatile("cpuid" : "=a"(a), "=b"(b), "=c"(c), "=d"(d) : "0"(0), "2"(0));
    __asm__ volatile("pushq %%rbx\n\tcpuid\n\tmovl %%ebx, %1\n\tpopq %%rbx" : "=a"(a), "=r"(b) : "0"(0) : "rcx", "rdx");
    __asm__ volatile("rdtsc" : "=a"(a), "=d"(d));
    __asm__ volatile("bswapq %0; rorw $8, %w1" : "+r"(n), "+r"(a));
    __asm__ volatile("lock; xaddl %0, %1" : "+r"(a), "+m"(own[0]) : : "memory");
    __asm__ volatile("/* (the number) */ incl %[number] # (%%rax)" : [number] "+m"(own[1]));
    __asm__ volatile("{incl %0|inc DWORD PTR cell}" : "+m"(own[2]));
    __asm__ volatile("mulq %3" : "=a"(n), "=d"(more) : "0"(n), "rm"(more) : "cc");
    __asm__ volatile("leaq (%1,%1,2), %0\n\tprefetcht0 (%2)" : "=r"(n) : "r"(n), "r"(own));
    __asm__ volatile("movsbl %b2, %0\n\tmovq %%rsp, %1" : "=&r"(a), "=&r"(more) : "q"(b));
    __asm__ volatile("sqrtsd %1, %0\n\tmovsd %0, %1" : "+x"(x), "+x"(x));
    __asm__ volatile("movups %0, %%xmm1\n\tpaddd %0, %%xmm1" : : "m"(wide_enough) : "xmm1");
    __asm__ volatile("movhps %0, %%xmm1\n\tmovlps %%xmm1, %0" : "+m"(x) : : "xmm1");
    __asm__ volatile("fsqrt\n\tfldz\n\tfaddp %%st, %%st(1)" : "+t"(x));
    __asm__ volatile("btl $3, %1\n\tsbbl %0, %0" : "=r"(a) : "m"(own[3]) : "cc");
    __asm__ volatile("bt %1, %0" : : "r"(a), "r"(b) : "cc");
    __asm__ volatile(".p2align 4\nloop%=:\n\tdecl %0\n\tjnz loop%=\n\tjmp 1f\n1:" : "=c"(c) : "0"(3) : "cc");
    __asm__ volatile("incq %0" : "+r"(bound));
    __asm__ volatile("" : "+m"(barred));
    __asm__ goto("testl %0, %0\n\tjz %l[out]" : : "r"(a) : "cc" : out);
out:
    return bound + named((int)n);
}

/* ---- Races ---- */

/* Other variables with the names of these stand in registers. */
static int other(void) {
    register int counted = 3;
    return counted;
}
static int takes(register int n, register int updated) { return n + updated; }
static int takes_too(n, updated_too) register int n, updated_too; { return n + updated_too; }
int declared(register int n, register int set);

static void update(void) {
    __asm__ volatile("lock; incl %0" : "+m"(counted));              /* [4 counted first] */
    __asm__ volatile("incl %0" : "+r"(updated));                    /* [4 updated first] */
    __asm__ volatile("incl %0" : "+g"(updated_too));                /* [4 updated_too first] */
    __asm__ volatile("" : "+r"(kept));                              /* [4 kept first] */
    __asm__ volatile("" : "=r"(set));                               /* [4 set first] */
    __asm__ volatile("" : "+m"(barred));
    __asm__ volatile("addl $1, %0\n\tsetc %b1" : "+m"(shown), "=q"(table[1])); /* [4 shown first] */ /* [1 table first] */
    __asm__ volatile("movl %0, %%eax" : : "m"(taken) : "eax");      /* [4 taken first] */
    __asm__ volatile("xchgl %0, %1" : "+r"(both[0]), "+m"(both[1])); /* [8 both first] */
}

int main(int words, char **word) {
    if (words > 1 && strcmp(word[1], "races") == 0) {
        cilk_spawn update();
        sink = counted;     /* [4 counted second] */
        sink = updated;     /* [4 updated second] */
        sink = updated_too; /* [4 updated_too second] */
        sink = kept;        /* [4 kept second] */
        sink = set;         /* [4 set second] */
        barred = 1;
        sink = shown;       /* [4 shown second] */
        sink = table[1];    /* [1 table second] */
        taken = 1;          /* [4 taken second] */
        both[0] = 1, both[1] = 1; /* [8 both second] */
        cilk_sync;
        return 0;
    }
    cilk_spawn go_by_registers(cells);
    cilk_spawn go_by_names();
    cilk_spawn go_beyond_operands();
    cilk_spawn naked();
    naked_too();
    whole();
    printf("%ld %d\n", is_known(), other() + takes(1, 2) + takes_too(1, 2));
    cilk_sync;
    return 0;
}
