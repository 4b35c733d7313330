/* Thread-local variables; which sequence is used to reach them is up to the model. */
extern __thread int elsewhere_thread;
extern __thread int hidden_thread __attribute__((visibility("hidden")));
__thread int global_thread = 1;
static __thread int local_one;
static __thread long local_two[4] = {1, 2, 3, 4};
extern void call(int *);

int load_elsewhere(void) { return elsewhere_thread; }
int load_global(void) { return global_thread; }
int load_hidden(void) { return hidden_thread; }
long load_locals(int n) { return local_one + local_two[n & 3]; }
int *address(void) { return &elsewhere_thread; }
int *address_of_global(void) { return &global_thread; }

void store(int value) {
    elsewhere_thread = value;
    global_thread += value;
    local_one = value;
    local_two[1] -= value;
    call(&local_one);
}

/* Two addresses alive at once. */
int both(int n) {
    for (int i = 0; i < n; i++) {
        call(&elsewhere_thread);
        call(&global_thread);
    }
    return elsewhere_thread == global_thread ? hidden_thread : local_one;
}
