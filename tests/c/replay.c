/* replay FOLDER: gives each file of a folder to the harness of fuzz.c, once. */
#include <dirent.h>
#include <stdint.h>
#include <stdio.h>

int LLVMFuzzerTestOneInput(const uint8_t *data, size_t size);

int main(int argc, char **argv)
{
    static uint8_t bytes[1 << 16];
    DIR *folder = argc == 2 ? opendir(argv[1]) : NULL;
    struct dirent *entry;
    size_t count = 0;
    while (folder && (entry = readdir(folder))) {
        char name[4096];
        snprintf(name, sizeof name, "%s/%s", argv[1], entry->d_name);
        FILE *f = entry->d_name[0] == '.' ? NULL : fopen(name, "rb");
        if (f == NULL)
            continue;
        LLVMFuzzerTestOneInput(bytes, fread(bytes, 1, sizeof bytes, f));
        fclose(f);
        count++;
    }
    printf("%zu inputs\n", count);
    return folder == NULL || count == 0;
}
