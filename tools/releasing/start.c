/* Lets the program run with C libraries that are older than the one it is linked with: here stand the two functions that it would ask
 * of a newer one.
 *
 * What a compiler of today puts before `main` asks for the __libc_start_main of version 2.34, which calls the program's constructors by itself.
 * The one of version 2.2.5, which each C library for this processor has, takes a function for that. Here it gets one. */
typedef int main_function(int, char **, char **);
typedef void constructor(int, char **, char **);

extern constructor *__init_array_start[], *__init_array_end[];

int earlier(main_function *, int, char **, constructor *, void (*)(void), void (*)(void), void *);
__asm__(".symver earlier, __libc_start_main@GLIBC_2.2.5");

static void construct(int argc, char **argv, char **envp)
{
    for (constructor **each = __init_array_start; each != __init_array_end; each++)
        (*each)(argc, argv, envp);
}

__attribute__((visibility("hidden")))
int __libc_start_main(main_function *main, int argc, char **argv, constructor *init, void (*fini)(void), void (*end)(void), void *stack)
{
    (void)init;
    return earlier(main, argc, argv, construct, fini, end, stack);
}

/* The features of the processor, by the numbers that the C library gives to the leaves of `cpuid`: those that the processor has, and those
 * that may be used. Before it begins, the program asks whether the processor has what its code needs (x86-64-v2), which asks nothing of the
 * operating system; so the two are the same here. */
struct features {
    unsigned of_processor[4], usable[4];
};

static const unsigned leaves[] = {1, 7, 0x80000001};

__attribute__((visibility("hidden")))
const struct features *__x86_get_cpuid_feature_leaf(unsigned number)
{
    static struct features known[sizeof leaves / sizeof *leaves];
    if (number >= sizeof leaves / sizeof *leaves)
        return (const struct features *)0;
    struct features *found = &known[number];
    unsigned *word = found->of_processor;
    __asm__("cpuid" : "=a"(word[0]), "=b"(word[1]), "=c"(word[2]), "=d"(word[3]) : "a"(leaves[number]), "c"(0));
    for (int i = 0; i < 4; i++)
        found->usable[i] = word[i];
    return found;
}
