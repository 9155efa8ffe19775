/* Whether a debugger, a profiler or a crash report sees through the engine: a call is made to touch a page that may not
 * be touched, and in the handler of the signal the stack is walked, which must lead back to main. */
#define _GNU_SOURCE
#include <execinfo.h>
#include <setjmp.h>
#include <signal.h>
#include <stdio.h>
#include <string.h>
#include <sys/mman.h>
#include <unistd.h>

#include "engine.h"

#define FRAMES 64

static sigjmp_buf back;
static void *frames[FRAMES];
static int walked, faults;

static void walk(int number)
{
    (void)number;
    walked = backtrace(frames, FRAMES);
    siglongjmp(back, 1);
}

/* The walk came to the function that called main, through a frame of the handler's, the signal's, the engine's and
 * main's own at least. */
static void reached(const void *caller, const char *what)
{
    int k = 0;

    while (k < walked && frames[k] != caller)
        k++;
    if (k == walked || k < 4) {
        printf("%s: %d frames, and main's caller is not behind four of them\n", what, walked);
        faults++;
    }
    walked = 0;
}

/* A page that may be touched, and behind it one that may not: where that begins. */
static uint8_t *fenced(void)
{
    size_t page = (size_t)sysconf(_SC_PAGESIZE);
    uint8_t *pages = (uint8_t *)mmap(NULL, 2 * page, PROT_READ | PROT_WRITE, MAP_PRIVATE | MAP_ANONYMOUS, -1, 0);

    return pages != MAP_FAILED && mprotect(pages + page, page, PROT_NONE) == 0 ? pages + page : NULL;
}

int main(void)
{
    static uint8_t table[ENGINE_TABLE], field[ENGINE_FIELD];
    static uint8_t *fence;
    static const void *caller;
    struct sigaction action;

    caller = __builtin_return_address(0);
    fence = fenced();
    memset(&action, 0, sizeof action);
    action.sa_handler = walk;
    action.sa_flags = SA_NODEFER;
    if (!fence || sigaction(SIGSEGV, &action, NULL) != 0)
        return 2;
    backtrace(frames, 1); /* it loads what it needs */

    if (sigsetjmp(back, 1) == 0)
        engine_compile(fence, ENGINE_SHEET, NULL, 0, table, sizeof table);
    reached(caller, "compile");
    if (sigsetjmp(back, 1) == 0)
        engine_compile(NULL, 0, NULL, 0, fence, ENGINE_TABLE);
    reached(caller, "compile's table");
    if (sigsetjmp(back, 1) == 0)
        engine_board(fence, ENGINE_TABLE, fence, ENGINE_ROUND, 0, ENGINE_HOST);
    reached(caller, "board");
    memcpy(fence - 1, "(", 1);
    if (sigsetjmp(back, 1) == 0)
        engine_formula(fence - 1, ENGINE_TEXT, field, sizeof field);
    reached(caller, "formula");
    if (faults == 0)
        puts("from within compile, board and formula the stack leads back to main");
    return faults != 0;
}
