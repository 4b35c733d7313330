__thread int x = 42;

int *f(void) { return &x; }

int main(void) { return *f(); }
