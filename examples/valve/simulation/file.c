#include "simulation/file.h"
#include "board.h"
#include <fcntl.h>
#include <stdio.h>
#include <stdlib.h>
#include <sys/mman.h>
#include <unistd.h>

void require(bool holds, const char *otherwise)
{
    if (!holds) {
        fprintf(stderr, "valve: %s\n", otherwise);
        exit(2);
    }
}

void *map_flash(const char *path, int protection)
{
    int file = open(path, O_RDWR);
    void *memory;
    require(file >= 0 && lseek(file, 0, SEEK_END) == FLASH_SIZE, "no flash of this board's size in that file");
    memory = mmap(NULL, FLASH_SIZE, protection, MAP_SHARED, file, 0);
    require(memory != MAP_FAILED, "the flash's file can't be mapped");
    close(file);
    return memory;
}

unsigned long setting(const char *name, unsigned long otherwise)
{
    const char *text = getenv(name);
    return text == NULL ? otherwise : strtoul(text, NULL, 10);
}
