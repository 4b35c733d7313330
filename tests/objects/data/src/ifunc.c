/* An indirect function, and references to it. */
static int one(int x) { return x + 1; }
static int two(int x) { return x + 2; }
extern int choice;

static int (*resolve(void))(int) { return choice ? one : two; }
int indirect(int) __attribute__((ifunc("resolve")));
static int local_indirect(int) __attribute__((ifunc("resolve")));

int (*pointer)(int) = indirect;
int calls(int x) { return indirect(x) * local_indirect(x); }
int (*address(void))(int) { return indirect; }
int (*local_address(void))(int) { return local_indirect; }
int is_indirect(int (*p)(int)) { return p == indirect; }
