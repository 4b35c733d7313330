/* A hidden symbol that is a number. */
    .globl foo
    .hidden foo
foo = VALUE
