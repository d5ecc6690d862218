/* A socket that accepts less than it is given, by -Wl,--wrap=send,--wrap=writev: of a send half, of a writev one byte, or
 * half of one piece. */
#include <stddef.h>
#include <sys/types.h>
#include <sys/uio.h>

ssize_t __real_send(int fd, const void *bytes, size_t len, int flags);
ssize_t __real_writev(int fd, const struct iovec *pieces, int count);

ssize_t __wrap_send(int fd, const void *bytes, size_t len, int flags) {
    return __real_send(fd, bytes, (len + 1) / 2, flags);
}

ssize_t __wrap_writev(int fd, const struct iovec *pieces, int count) {
    for (int k = 0; k < count; k++)
        if (pieces[k].iov_len > 0) {
            struct iovec part = {pieces[k].iov_base, k == 0 ? 1 : (pieces[k].iov_len + 1) / 2};
            return __real_writev(fd, &part, 1);
        }
    return 0;
}
