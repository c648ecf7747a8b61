// A write past a file size limit is to fail, as one to a full disk does, and not to end the process: then the temporary file goes, and
// the status says it. (A write to nobody fails already: Rattle's own start sees to that.) This is done before the proved main begins.
#include <signal.h>

__attribute__((constructor)) static void fail_past_limits(void) {
    signal(SIGXFSZ, SIG_IGN);
}
