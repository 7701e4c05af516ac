// linked.cpp: a C++ program over the library. It takes the address of each function that a header declares: the file
// functions.h has a line FUNCTION(name) for each. Then it runs a controller over a file of eight blocks. It prints how
// many functions there are.
// Usage: linked FILE
#include "uda50_file.h"
#include "uda50_machine.h"
#include "uda50_steps.h"

#include <cstdio>

#define FUNCTION(name) reinterpret_cast<void (*)()>(name),

// They are volatile, so that the compiler leaves none out.
static void (*const volatile functions[])() = {
#include "functions.h"
};

// Attaches the file, and gets it back with the controller's end.
static bool runs(const char *path)
{
    uda50 handle = uda50();
    uda50_image images[UDA50_UNITS] = {};
    uda50_file file;

    return uda50_version() == UDA50_VERSION && uda50_new(&handle, true) == UDA50_OK
           && uda50_file_open(&file, path, false) == UDA50_FILE_OK
           && uda50_file_attach(&handle, 1, &file) == UDA50_OK && uda50_read_sa(&handle) == 0x0940
           && uda50_free(&handle, images) == UDA50_OK && images[1].length == 4096
           && uda50_file_close(&file) == UDA50_FILE_OK;
}

int main(int count, char **arguments)
{
    unsigned linked = 0;

    for (unsigned n = 0; n < sizeof functions / sizeof *functions; n++)
        linked += functions[n] != NULL;
    std::printf("%u\n", linked);
    return count == 2 && runs(arguments[1]) ? 0 : 1;
}
