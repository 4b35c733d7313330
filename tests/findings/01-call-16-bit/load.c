#include <dlfcn.h>

/* Loads a shared object, and ends with what its f answers. */
int main(int argc, char **argv) {
    void *library = argc == 2 ? dlopen(argv[1], RTLD_NOW) : 0;
    int (*f)(void) = library ? (int (*)(void))dlsym(library, "f") : 0;
    return f ? f() : 1;
}
