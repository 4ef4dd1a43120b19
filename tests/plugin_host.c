/* Loads a plugin that has the static library inside, and the shared library by itself, at run time.
 * No header is seen here: names that are inline in the header are found in the library.
 * usage: plugin_host PLUGIN LIBRARY */
#include <dlfcn.h>
#include <stdint.h>
#include <stdio.h>
#include <string.h>

/* A function by its name: a pointer to an object cannot be cast to one to a function in C99. */
#define FIND(to, from, name) (*(void **)(&(to)) = dlsym(from, name))

static int try_plugin(const char *file) {
    void *plugin = dlopen(file, RTLD_NOW | RTLD_LOCAL);
    int64_t (*total)(void) = NULL;
    int64_t found;
    if (!plugin || !FIND(total, plugin, "plugin_total")) return 1;
    found = total();
    return dlclose(plugin) != 0 || found != 12;
}

static int try_library(const char *file) {
    void *library = dlopen(file, RTLD_NOW | RTLD_LOCAL);
    void (*put)(uint8_t *, size_t, int32_t) = NULL;
    int32_t (*get)(const uint8_t *, size_t) = NULL;
    int (*in_use)(const uint64_t *, size_t) = NULL;
    const char *(*version)(void) = NULL;
    uint8_t weight[8];
    uint64_t words[16] = {0, 4};
    if (!library || !FIND(put, library, "star_put_price") || !FIND(get, library, "star_get_price"))
        return 2;
    if (!FIND(in_use, library, "star_in_use") || !FIND(version, library, "star_version")) return 3;
    put(weight, 1, -70000);
    if (get(weight, 1) != -70000 || !in_use(words, 67) || in_use(words, 66)) return 4;
    printf("%s\n", version());
    return dlclose(library) != 0;
}

int main(int count, char **words) {
    int wrong = count == 3 ? try_plugin(words[1]) : 9;
    if (!wrong) wrong = try_library(words[2]);
    if (wrong) fprintf(stderr, "plugin_host: %d, %s\n", wrong, dlerror());
    return wrong;
}
