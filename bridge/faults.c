#include "faults.h"
#include <stdarg.h>
#include <stdio.h>
#include <string.h>
#include <unistd.h>

enum bridge_code fault_set(struct bridge_fault *fault, enum bridge_code code, const char *form,
                           ...) {
    va_list more;
    va_start(more, form);
    fault->code = code;
    vsnprintf(fault->text, sizeof fault->text, form, more);
    va_end(more);
    return code;
}

const char *fault_name(enum bridge_code code) {
    switch (code) {
    case BRIDGE_OK: return "Ok";
    case BRIDGE_NO_SUCH_OPTION: return "NoSuchOption";
    case BRIDGE_NO_VALUE: return "NoValue";
    case BRIDGE_GIVEN_TWICE: return "GivenTwice";
    case BRIDGE_NOT_A_NUMBER: return "NotANumber";
    case BRIDGE_OUT_OF_RANGE: return "OutOfRange";
    case BRIDGE_BAD_TEXT: return "BadText";
    case BRIDGE_BAD_LINE: return "BadLine";
    case BRIDGE_NO_FILE: return "NoFile";
    case BRIDGE_ENGINE_ABSENT: return "EngineAbsent";
    case BRIDGE_ENGINE_SILENT: return "EngineSilent";
    case BRIDGE_ENGINE_REFUSES: return "EngineRefuses";
    case BRIDGE_STREAM_ABSENT: return "StreamAbsent";
    case BRIDGE_DAMAGED_ENTRY: return "DamagedEntry";
    case BRIDGE_WRONG_STREAM: return "WrongStream";
    case BRIDGE_STREAM_CHANGED: return "StreamChanged";
    case BRIDGE_TAKEN_OVER: return "TakenOver";
    case BRIDGE_NEWER_VERSION: return "NewerVersion";
    case BRIDGE_OLDER_VERSION: return "OlderVersion";
    case BRIDGE_BUS_REFUSES: return "BusRefuses";
    case BRIDGE_NO_MEMORY: return "NoMemory";
    case BRIDGE_NO_THREAD: return "NoThread";
    case BRIDGE_BAD_PLACE: return "BadPlace";
    }
    return "NoCode";
}

int fault_is_final(enum bridge_code code) {
    return code >= BRIDGE_WRONG_STREAM;
}

void say(const char *form, ...) {
    char line[600];
    va_list more;
    va_start(more, form);
    int length = vsnprintf(line, sizeof line - 1, form, more);
    va_end(more);
    if (length < 0) return;
    if ((size_t)length > sizeof line - 2) length = (int)sizeof line - 2;
    line[length++] = '\n';
    if (write(STDERR_FILENO, line, (size_t)length) < 0) return;
}
