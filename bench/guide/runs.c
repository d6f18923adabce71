// Runs a program again and again, each time with other words and another input, and tells what a run was the first to
// reach: basic blocks, and the two ways of conditional jumps. Part of bench/guided, which says how and why. bench/cases
// gives it an empty list, and so has runs that cost no loading.
//
// It is loaded before the program (LD_PRELOAD), and stops it before its own code begins. Each run is a child of the
// program at this place, with the words in place of its own.
//
// An INT3 stands in memory at the beginning of each block that no run has reached. A run that comes there gets a
// signal, notes the block, puts the byte back, and goes on; and before the next run the byte is put back for good. So a
// block costs one signal in its life, and all other runs are at full speed. In some runs there stands one at each jump
// too that has not gone both ways: there the flags say which way it goes. A jump may cost a run a few signals.
//
// GUIDED has the name of the list of blocks and jumps, that of the map of what was reached, the most bytes of an
// output, the seconds that a run may take, and the descriptors on which runs are asked for and told of. A line of the
// list is `b` and the address of a block, or `j`, the address of a jump and the one behind it. The map has a byte for
// each block and two for each jump, taken and not taken, and is shared with the other jobs.
//
// Asked are, in numbers of 32 bits: whether jumps are looked at, which calls fail and by which number, the count of
// words, each word and then the input, with their lengths before them. Told are: how the run ended (exit, signal, too
// long), with which number, whether a call was made to fail, the count of new places of the map and these, and what was
// written to standard output and standard error, with its lengths.
#define _GNU_SOURCE
#include <elf.h>
#include <errno.h>
#include <fcntl.h>
#include <signal.h>
#include <stdint.h>
#include <stdio.h>
#include <stdlib.h>
#include <string.h>
#include <sys/auxv.h>
#include <sys/mman.h>
#include <sys/resource.h>
#include <sys/syscall.h>
#include <sys/time.h>
#include <sys/wait.h>
#include <ucontext.h>
#include <unistd.h>

enum { EXITED, KILLED, TOO_LONG };
enum { NO_FAULT, READ_PIECES, READ_FAILS, WRITE_FAILS, WRITE_PIECES, NO_MEMORY, NOTE_FAILS };
enum { INT3 = 0xcc, WALL_SECONDS = 600, STOPS = 6, PAGE = 4096 };

// A block, or a conditional jump.
struct point {
    uint64_t address, behind; // in memory
    uint32_t reached;         // its first place in the map
    unsigned char is_jump, byte, is_set, stops;
};

// What a run tells of itself.
struct told {
    uint32_t is_faulted, count, places[];
};

static struct point *points;
static uint32_t point_count, reached_count, most_output, seconds;
static int32_t *block_at, *jump_at; // by address, from the first one on
static uint64_t first_address, address_span, bias;
static unsigned char *reached;
static struct told *told;
static int asked, telling, input_file, output_file, note_file;
static volatile sig_atomic_t running, is_late;

// How the calls of this run fail; it is one of the runs if it is asked to be.
static int is_run;
static uint32_t fault, fault_number;
static uint64_t draws;

static void fails(const char *what)
{
    dprintf(2, "bench/guided: %s: %s\n", what, strerror(errno));
    _exit(1);
}

// The calls of the program, some of which fail.

static size_t piece(size_t asked)
{
    draws = draws * 6364136223846793005ull + 1442695040888963407ull;
    size_t drawn = 1 + (draws >> 33) % (1ull << (fault_number % 13));
    told->is_faulted = 1;
    return drawn < asked ? drawn : asked;
}

// Whether this call is the one that fails, or one behind it.
static int is_refused(uint32_t kind)
{
    if (!is_run || fault != kind)
        return 0;
    if (fault_number > 0) {
        fault_number--;
        return 0;
    }
    told->is_faulted = 1;
    return 1;
}

ssize_t read(int file, void *room, size_t size)
{
    if (file == 0 && is_refused(READ_FAILS)) {
        errno = EIO;
        return -1;
    }
    if (is_run && file == 0 && fault == READ_PIECES)
        size = piece(size);
    return syscall(SYS_read, file, room, size);
}

ssize_t write(int file, const void *bytes, size_t size)
{
    if (file == 1 && is_refused(WRITE_FAILS)) {
        errno = ENOSPC;
        return -1;
    }
    if (file == 2 && is_refused(NOTE_FAILS)) {
        errno = EBADF;
        return -1;
    }
    if (is_run && file == 1 && fault == WRITE_PIECES)
        size = piece(size);
    return syscall(SYS_write, file, bytes, size);
}

ssize_t __write(int file, const void *bytes, size_t size)
{
    return write(file, bytes, size);
}

extern void *__libc_malloc(size_t);
extern void *__libc_realloc(void *, size_t);

void *malloc(size_t size)
{
    return is_refused(NO_MEMORY) ? NULL : __libc_malloc(size);
}

void *realloc(void *room, size_t size)
{
    return is_refused(NO_MEMORY) ? NULL : __libc_realloc(room, size);
}

// The blocks and jumps.

static void list_points(const char *name)
{
    FILE *list = fopen(name, "r");
    unsigned long long address, behind, last = 0;
    uint32_t room = 0;
    char kind;
    if (!list)
        fails(name);
    first_address = UINT64_MAX;
    while (fscanf(list, " %c %llx %llx", &kind, &address, &behind) == 3) {
        if (point_count == room) {
            room = room ? 2 * room : 4096;
            points = realloc(points, room * sizeof *points);
            if (!points)
                fails("memory");
        }
        address += bias;
        points[point_count++] = (struct point){ address, behind + bias, reached_count, kind == 'j', 0, 0, 0 };
        reached_count += kind == 'j' ? 2 : 1;
        first_address = address < first_address ? address : first_address;
        last = address > last ? address : last;
    }
    fclose(list);
    address_span = point_count ? last - first_address + 1 : 0;
}

static int32_t *by_address(int is_jump)
{
    int32_t *at = malloc((address_span + 1) * sizeof *at);
    if (!at)
        fails("memory");
    memset(at, 0xff, address_span * sizeof *at);
    for (uint32_t i = 0; i < point_count; i++)
        if (points[i].is_jump == is_jump)
            at[points[i].address - first_address] = i;
    return at;
}

static int32_t found(const int32_t *at, uint64_t address)
{
    uint64_t place = address - first_address;
    return place < address_span ? at[place] : -1;
}

static int is_done(const struct point *point)
{
    return reached[point->reached] && (!point->is_jump || reached[point->reached + 1]);
}

static void set_byte(const struct point *point, unsigned char byte)
{
    *(volatile unsigned char *)point->address = byte;
}

// Puts INT3 where something is still to be reached, and the program's own bytes everywhere else.
static void set_points(int with_jumps)
{
    for (uint32_t i = 0; i < point_count; i++) {
        struct point *point = &points[i];
        unsigned char is_set = !is_done(point) && (with_jumps || !point->is_jump);
        if (is_set == point->is_set)
            continue;
        point->is_set = is_set;
        int32_t other = found(point->is_jump ? block_at : jump_at, point->address);
        if (is_set || other < 0 || !points[other].is_set)
            set_byte(point, is_set ? INT3 : point->byte);
    }
}

static void reach(uint32_t place)
{
    if (!__atomic_exchange_n(&reached[place], 1, __ATOMIC_RELAXED))
        told->places[told->count++] = place;
}

// Whether a conditional jump is taken, by the low four bits of its code.
static int is_taken(unsigned char condition, unsigned long flags)
{
    int carry = flags & 1, parity = flags >> 2 & 1, zero = flags >> 6 & 1;
    int sign = flags >> 7 & 1, over = flags >> 11 & 1;
    int is[] = { over, carry, zero, carry | zero, sign, parity, sign ^ over, zero | (sign ^ over) };
    return is[condition >> 1 & 7] ^ (condition & 1);
}

// Goes the way of a conditional jump.
static void at_jump(struct point *point, greg_t *now)
{
    const unsigned char *code = (const unsigned char *)point->address;
    int is_long = point->byte == 0x0f;
    int32_t by;
    memcpy(&by, code + 2, sizeof by);
    int taken = is_taken(is_long ? code[1] : point->byte, now[REG_EFL]);
    now[REG_RIP] = point->behind + (taken ? is_long ? by : (signed char)code[1] : 0);
    reach(point->reached + !taken);
    if (++point->stops >= STOPS || is_done(point))
        set_byte(point, point->byte);
}

static void at_point(int number, siginfo_t *info, void *context)
{
    greg_t *now = ((ucontext_t *)context)->uc_mcontext.gregs;
    uint64_t here = now[REG_RIP] - 1;
    int32_t block = found(block_at, here), jump = found(jump_at, here);
    (void)info;
    if (block >= 0)
        reach(points[block].reached);
    if (jump >= 0 && points[jump].is_set) {
        at_jump(&points[jump], now);
    } else if (block >= 0) {
        set_byte(&points[block], points[block].byte);
        now[REG_RIP] = here;
    } else {
        signal(number, SIG_DFL);
    }
}

// The program in memory.

// How far from its addresses in the file it lies, and its code made writable.
static void open_program(void)
{
    const Elf64_Phdr *parts = (const Elf64_Phdr *)getauxval(AT_PHDR);
    uint64_t count = getauxval(AT_PHNUM);
    for (uint64_t i = 0; i < count; i++)
        if (parts[i].p_type == PT_PHDR)
            bias = (uint64_t)parts - parts[i].p_vaddr;
    for (uint64_t i = 0; i < count; i++) {
        if (parts[i].p_type != PT_LOAD || !(parts[i].p_flags & PF_X))
            continue;
        uint64_t to = bias + parts[i].p_vaddr + parts[i].p_memsz;
        uint64_t from = (bias + parts[i].p_vaddr) & ~(uint64_t)(PAGE - 1);
        if (mprotect((void *)from, to - from, PROT_READ | PROT_WRITE | PROT_EXEC) < 0)
            fails("the program's code");
    }
}

static void share(const char *name)
{
    int file = open(name, O_RDWR | O_CLOEXEC);
    reached = file < 0 ? MAP_FAILED : mmap(NULL, reached_count + 1, PROT_READ | PROT_WRITE, MAP_SHARED, file, 0);
    size_t size = sizeof *told + (size_t)reached_count * sizeof told->places[0];
    told = mmap(NULL, size, PROT_READ | PROT_WRITE, MAP_SHARED | MAP_ANONYMOUS, -1, 0);
    if (reached == MAP_FAILED || told == MAP_FAILED)
        fails(name);
    close(file);
    input_file = memfd_create("input", MFD_CLOEXEC);
    output_file = memfd_create("output", MFD_CLOEXEC);
    note_file = memfd_create("note", MFD_CLOEXEC);
    if (input_file < 0 || output_file < 0 || note_file < 0)
        fails("a file in memory");
}

static void late(int signal)
{
    (void)signal;
    is_late = 1;
    if (running > 0)
        kill(running, SIGKILL);
}

// What is asked and told.

static void get(void *room, size_t size)
{
    for (size_t done = 0; done < size;) {
        ssize_t given = syscall(SYS_read, asked, (char *)room + done, size - done);
        if (given <= 0)
            _exit(0);
        done += given;
    }
}

static uint32_t number(void)
{
    uint32_t value;
    get(&value, sizeof value);
    return value;
}

static char *bytes(uint32_t *size)
{
    *size = number();
    char *room = calloc(1, (size_t)*size + 1);
    if (!room)
        fails("memory");
    get(room, *size);
    return room;
}

static void tell(const void *from, size_t size)
{
    for (size_t done = 0; done < size;) {
        ssize_t taken = syscall(SYS_write, telling, (const char *)from + done, size - done);
        if (taken <= 0)
            _exit(0);
        done += taken;
    }
}

static void tell_file(int file)
{
    off_t size = lseek(file, 0, SEEK_END);
    uint32_t told_size = size;
    char *room = malloc(size + 1);
    if (!room || pread(file, room, size, 0) != size)
        fails("what was written");
    tell(&told_size, sizeof told_size);
    tell(room, size);
    free(room);
}

static void empty(int file)
{
    if (ftruncate(file, 0) < 0)
        fails("a file in memory");
    lseek(file, 0, SEEK_SET);
}

// The runs.

static void limit(int resource, rlim_t soft, rlim_t hard)
{
    struct rlimit both = { soft, hard };
    setrlimit(resource, &both);
}

// In the child: makes it the run. The count of the words stands before the first one.
static void become(uint32_t count, char **words, char **own)
{
    struct sigaction at = { .sa_sigaction = at_point, .sa_flags = SA_SIGINFO | SA_NODEFER };
    sigaction(SIGTRAP, &at, NULL);
    signal(SIGALRM, SIG_DFL);
    signal(SIGXFSZ, SIG_IGN);
    limit(RLIMIT_FSIZE, most_output, most_output);
    limit(RLIMIT_CORE, 0, 0);
    limit(RLIMIT_CPU, seconds, seconds + 1);
    dup2(input_file, 0);
    dup2(output_file, 1);
    dup2(note_file, 2);
    // (0 and 1 are its own input and output by now)
    if (asked > 2)
        close(asked);
    if (telling > 2)
        close(telling);
    for (uint32_t i = 0; i < count; i++)
        own[i + 1] = words[i];
    own[count + 1] = NULL;
    ((uint64_t *)own)[-1] = count + 1;
    is_run = 1;
}

// Waits for the run, and tells how it ended.
static void tell_end(pid_t child)
{
    struct itimerval wall = { { 0, 0 }, { WALL_SECONDS, 0 } }, none = { { 0, 0 }, { 0, 0 } };
    int state;
    is_late = 0;
    running = child;
    setitimer(ITIMER_REAL, &wall, NULL);
    while (waitpid(child, &state, 0) < 0)
        if (errno != EINTR)
            fails("waitpid");
    running = 0;
    setitimer(ITIMER_REAL, &none, NULL);
    uint32_t how = WIFSIGNALED(state) ? KILLED : EXITED;
    uint32_t code = how == KILLED ? WTERMSIG(state) : WEXITSTATUS(state);
    if (is_late || (how == KILLED && code == SIGXCPU))
        how = TOO_LONG;
    uint32_t answer[] = { how, code, told->is_faulted, told->count };
    tell(answer, sizeof answer);
    tell(told->places, told->count * sizeof told->places[0]);
    tell_file(output_file);
    tell_file(note_file);
}

// Serves one run, and answers in its child alone.
static int is_in_child(uint32_t most, char **own)
{
    uint32_t with_jumps = number(), size;
    fault = number();
    fault_number = draws = number();
    uint32_t count = number();
    char **words = calloc((size_t)count + 1, sizeof *words);
    if (!words || count > most)
        fails("words");
    for (uint32_t i = 0; i < count; i++)
        words[i] = bytes(&size);
    char *input = bytes(&size);
    empty(input_file);
    empty(output_file);
    empty(note_file);
    if (pwrite(input_file, input, size, 0) != (ssize_t)size)
        fails("the input");
    set_points(with_jumps);
    told->is_faulted = told->count = 0;
    pid_t child = fork();
    if (child < 0)
        fails("fork");
    if (child == 0) {
        become(count, words, own);
        return 1;
    }
    tell_end(child);
    for (uint32_t i = 0; i < count; i++)
        free(words[i]);
    free(words);
    free(input);
    return 0;
}

__attribute__((constructor)) static void stop_here(int count, char **own)
{
    char list[4096], map[4096];
    const char *words = getenv("GUIDED");
    if (!words)
        return;
    if (sscanf(words, "%4095s %4095s %u %u %d %d", list, map, &most_output, &seconds, &asked, &telling) != 6)
        fails("GUIDED");
    open_program();
    list_points(list);
    block_at = by_address(0);
    jump_at = by_address(1);
    for (uint32_t i = 0; i < point_count; i++)
        points[i].byte = *(const unsigned char *)points[i].address;
    share(map);
    struct sigaction alarm = { .sa_handler = late };
    sigaction(SIGALRM, &alarm, NULL);
    while (!is_in_child(count - 1, own))
        ;
}
