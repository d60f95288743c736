// A filter from standard input to standard output: small letters become capitals. It shows that a journal has what was read, so
// that a replay needs no input. It reads and writes by the system's calls, and so sends each piece of its input as it arrives.
#include <ctype.h>
#include <unistd.h>

int main(void) {
    static char bytes[4096];
    for (;;) {
        ssize_t count = read(STDIN_FILENO, bytes, sizeof bytes);
        if (count <= 0) {
            return count == 0 ? 0 : 1;
        }
        for (ssize_t i = 0; i < count; i++) {
            bytes[i] = (char)toupper(bytes[i]);
        }
        for (ssize_t sent = 0; sent < count;) {
            ssize_t part = write(STDOUT_FILENO, bytes + sent, (size_t)(count - sent));
            if (part < 0) {
                return 1;
            }
            sent += part;
        }
    }
}
