/* The functions of Windows that the proved program needs: arguments and file names in UTF-8, and files without translation of
   line ends. The proved part calls them instead of POSIX's open, read, write, close and signal (translate.py --rename).

   An argument that is not valid UTF-16 becomes bytes that are not valid UTF-8, so the program refuses it as on Linux. A name
   may be longer than MAX_PATH. Windows has no signal to ignore: a write to a closed pipe fails. */
#define WIN32_LEAN_AND_MEAN
#include <windows.h>
#include <shellapi.h>
#include <errno.h>
#include <fcntl.h>
#include <io.h>
#include <stdint.h>
#include <stdlib.h>
#include <string.h>
#include <wchar.h>

enum {
    MOST_AT_ONCE = 1 << 20,
    /* An old console refuses larger writes. */
    MOST_TO_CONSOLE = 1 << 14,
    /* Names of at least this length become absolute names after \\?\, for which the limit MAX_PATH does not apply. */
    LONG_NAME = 240
};

size_t rattle_arg_count(void);
ptrdiff_t rattle_arg(size_t i, char *to, size_t room);
int rattle_errno(void);
void rattle_set_errno(int error);
int windows_open(const char *name, int how, ...);
ptrdiff_t windows_read(int file, void *to, size_t count);
ptrdiff_t windows_write(int file, const void *from, size_t count);
int windows_close(int file);
void *windows_signal(int number, void *handler);
int windows_error_text(int error, char *to, size_t room);

static size_t count;
static char **words;

/* The last error, as a Linux number, since the proved part knows these. */
static int last;

/* Converts UTF-16 to UTF-8. Half of a surrogate pair is converted as if it were a character. Returns the number of bytes. */
static size_t encode(const wchar_t *from, char *to)
{
    size_t n = 0;
    while (*from != 0) {
        uint32_t c = *from++;
        int more, k;
        if (c >= 0xd800 && c < 0xdc00 && *from >= 0xdc00 && *from < 0xe000)
            c = 0x10000 + ((c - 0xd800) << 10) + (*from++ - 0xdc00);
        more = c < 0x80 ? 0 : c < 0x800 ? 1 : c < 0x10000 ? 2 : 3;
        to[n++] = (char)(more == 0 ? c : (0xf00u >> more & 0xffu) | c >> (6 * more));
        for (k = more - 1; k >= 0; k--)
            to[n++] = (char)(0x80 | (c >> (6 * k) & 0x3f));
    }
    to[n] = 0;
    return n;
}

/* Ends the process with the message and status of the program when it runs out of memory. */
static void end_without_memory(void)
{
    static const char line[] = "no memory\n";
    _write(2, line, sizeof line - 1);
    _exit(7);
}

/* Runs before main: stores the arguments, and switches the three standard streams to binary mode. */
__attribute__((constructor)) static void prepare(void)
{
    int found = 0, i;
    wchar_t **wide = CommandLineToArgvW(GetCommandLineW(), &found);
    for (i = 0; i < 3; i++)
        _setmode(i, _O_BINARY);
    words = wide != NULL ? calloc((size_t)found + 1, sizeof *words) : NULL;
    if (words == NULL)
        end_without_memory();
    for (i = 0; i < found; i++) {
        words[i] = malloc(3 * wcslen(wide[i]) + 1);
        if (words[i] == NULL)
            end_without_memory();
        encode(wide[i], words[i]);
    }
    count = (size_t)found;
    LocalFree(wide);
}

size_t rattle_arg_count(void)
{
    return count;
}

ptrdiff_t rattle_arg(size_t i, char *to, size_t room)
{
    size_t length;
    if (i >= count)
        return -1;
    length = strlen(words[i]);
    memcpy(to, words[i], length < room ? length : room);
    return length > room ? -2 : (ptrdiff_t)length;
}

int rattle_errno(void)
{
    return last;
}

void rattle_set_errno(int error)
{
    last = error;
}

/* Stores an error number of the C library as its Linux number. */
static ptrdiff_t failed(int error)
{
    last = error == ENAMETOOLONG ? 36 : error == EDEADLK ? 35 : error == ENOLCK ? 37 : error == ENOSYS ? 38
        : error == ENOTEMPTY ? 39 : error == EILSEQ ? 84 : error;
    return -1;
}

/* A name in UTF-16, absolute if it is long; null if it is not valid UTF-8 or memory runs out. */
static wchar_t *widened(const char *name)
{
    int room = MultiByteToWideChar(CP_UTF8, MB_ERR_INVALID_CHARS, name, -1, NULL, 0);
    wchar_t *wide = room > 0 ? malloc((size_t)room * sizeof *wide) : NULL;
    if (wide == NULL || MultiByteToWideChar(CP_UTF8, MB_ERR_INVALID_CHARS, name, -1, wide, room) != room) {
        free(wide);
        return NULL;
    }
    if (room > LONG_NAME && wcsncmp(wide, L"\\\\?\\", 4) != 0 && wcsncmp(wide, L"\\\\.\\", 4) != 0) {
        DWORD whole = GetFullPathNameW(wide, 0, NULL, NULL);
        wchar_t *full = whole > 0 ? malloc(((size_t)whole + 8) * sizeof *full) : NULL;
        if (full != NULL && GetFullPathNameW(wide, whole, full + 8, NULL) - 1 < whole - 1) {
            int is_share = full[8] == L'\\' && full[9] == L'\\';
            const wchar_t *head = is_share ? L"\\\\?\\UNC" : L"\\\\?\\";
            wchar_t *rest = full + 8 + (is_share ? 1 : 0);
            size_t n = wcslen(head);
            memmove(full + n, rest, (wcslen(rest) + 1) * sizeof *rest);
            memcpy(full, head, n * sizeof *head);
            free(wide);
            return full;
        }
        free(full);
    }
    return wide;
}

/* Opens a file for reading; the program opens files for nothing else. */
int windows_open(const char *name, int how, ...)
{
    wchar_t *wide;
    HANDLE handle;
    int file;
    if ((how & 3) != 0)
        return (int)failed(EINVAL);
    wide = widened(name);
    if (wide == NULL)
        return (int)failed(EINVAL);
    handle = CreateFileW(wide, GENERIC_READ, FILE_SHARE_READ | FILE_SHARE_WRITE | FILE_SHARE_DELETE, NULL, OPEN_EXISTING,
                         FILE_ATTRIBUTE_NORMAL, NULL);
    free(wide);
    if (handle == INVALID_HANDLE_VALUE) {
        DWORD why = GetLastError();
        return (int)failed(why == ERROR_FILE_NOT_FOUND || why == ERROR_PATH_NOT_FOUND ? ENOENT : EACCES);
    }
    file = _open_osfhandle((intptr_t)handle, _O_RDONLY | _O_BINARY);
    if (file < 0)
        CloseHandle(handle);
    return file < 0 ? (int)failed(EMFILE) : file;
}

/* Reads bytes. A pipe whose writer has closed it is at its end. */
ptrdiff_t windows_read(int file, void *to, size_t size)
{
    int got = _read(file, to, (unsigned)(size < MOST_AT_ONCE ? size : MOST_AT_ONCE));
    return got >= 0 ? got : errno == EPIPE ? 0 : failed(errno);
}

ptrdiff_t windows_write(int file, const void *from, size_t size)
{
    size_t most = _isatty(file) ? MOST_TO_CONSOLE : MOST_AT_ONCE;
    int put = _write(file, from, (unsigned)(size < most ? size : most));
    return put >= 0 ? put : failed(errno);
}

int windows_close(int file)
{
    return _close(file) == 0 ? 0 : (int)failed(errno);
}

void *windows_signal(int number, void *handler)
{
    (void)number, (void)handler;
    return NULL;
}

/* Writes the text of an error number, truncated to the room. */
int windows_error_text(int error, char *to, size_t room)
{
    return strerror_s(to, room, error);
}
