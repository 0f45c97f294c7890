/* Runs the page's module, made into C, on one document: module WORD [WORD] < DOCUMENT. For bench/module.sh. */
#include <stdio.h>
#include <string.h>
#include "module.h"

static Z_module_instance_t module;

/* A block of the module's memory with this text in it. */
static u64 placed(const char *text, size_t length) {
    u64 at = Z_moduleZ_block(&module, length);
    memcpy(module.w2c_memory.data + at, text, length);
    return at;
}

int main(int count, char **words) {
    static char source[1 << 24];
    size_t length = fread(source, 1, sizeof source, stdin);
    u64 given[4], room = 1 << 20, document, out, answer, written;
    unsigned status;
    if (count < 2 || count > 3) {
        return 64;
    }
    wasm_rt_init();
    Z_module_init_module();
    Z_module_instantiate(&module);
    for (int k = 1; k < count; k++) {
        given[2 * k - 2] = placed(words[k], strlen(words[k]));
        given[2 * k - 1] = strlen(words[k]);
    }
    document = placed(source, length);
    out = Z_moduleZ_block(&module, room);
    answer = Z_moduleZ_block(&module, 16);
    if (count == 2) {
        Z_moduleZ_unity_one(&module, given[0], given[1], document, length, out, room, answer);
    } else {
        Z_moduleZ_unity_two(&module, given[0], given[1], given[2], given[3], document, length, out, room, answer);
    }
    memcpy(&status, module.w2c_memory.data + answer, sizeof status);
    memcpy(&written, module.w2c_memory.data + answer + 8, sizeof written);
    fwrite(module.w2c_memory.data + out, 1, written, stdout);
    return status;
}
