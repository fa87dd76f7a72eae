#include "processor.h"

#include <stdbool.h>
#include <stdlib.h>
#include <string.h>

/* The text behind the colon of a line that begins with this name, or NULL. */
static char *value_of(char *line, const char *name) {
    char *colon = strncmp(line, name, strlen(name)) == 0 ? strchr(line, ':') : NULL;
    if (colon == NULL)
        return NULL;
    colon[strcspn(colon, "\n")] = '\0';
    return colon + 1 + (colon[1] == ' ');
}

static bool find_processor(FILE *list, int number, char *model, char *microcode, size_t len) {
    char line[4096];
    int at = -1;
    bool is_found = false;
    while (fgets(line, sizeof line, list) != NULL) {
        char *value;
        if ((value = value_of(line, "processor")) != NULL)
            at = (int)strtol(value, NULL, 10);
        if (at != number)
            continue;
        is_found = true;
        if ((value = value_of(line, "model name")) != NULL)
            snprintf(model, len, "%s", value);
        if ((value = value_of(line, "microcode")) != NULL)
            snprintf(microcode, len, "%s", value);
    }
    return is_found;
}

void put_processor(FILE *file, int number) {
    char model[128] = "of a model that isn't told", microcode[128] = "that isn't told";
    FILE *list = fopen("/proc/cpuinfo", "re");
    bool is_found = list != NULL && find_processor(list, number, model, microcode, sizeof model);
    if (list != NULL)
        fclose(list);
    if (is_found)
        fprintf(file, "%d, %s, microcode %s", number, model, microcode);
    else
        fprintf(file, "%d, of which the kernel tells nothing", number);
}
