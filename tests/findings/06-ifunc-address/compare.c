#include <dlfcn.h>

/* Ends with 0 if a shared object's own address of f is the one that others get, with 1 if not, 2 if it isn't loaded. */
int main(int argc, char **argv) {
    void *library = argc == 2 ? dlopen(argv[1], RTLD_NOW) : 0;
    void *(*address_of_f)(void) = library ? (void *(*)(void))dlsym(library, "address_of_f") : 0;
    return address_of_f ? address_of_f() != dlsym(library, "f") : 2;
}
