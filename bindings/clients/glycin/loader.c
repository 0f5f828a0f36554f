/* A loader for glycin, by which programs of GNOME show pictures: a program that glycin starts for
 * each picture, in a sandbox, and asks over D-Bus, on the socket that is its standard input. `Init`
 * brings the file's bytes over a socket of their own, and gets what the header says; `Frame` gets
 * the picture, in memory that both share. Of a damaged file that is the part before its fault.
 *
 * The sandbox allows few system calls: none of those by which GLib asks what kind of socket it has.
 * So GLib only reads and writes the messages here, and recvmsg and sendmsg carry them. */
#define _GNU_SOURCE
#include <errno.h>
#include <gio/gio.h>
#include <gio/gunixfdlist.h>
#include <glib-unix.h>
#include <string.h>
#include <sys/mman.h>
#include <sys/socket.h>
#include <sys/syscall.h>
#include <unistd.h>

#include "zaxbriar.h"

/* Numbers of glycin's memory formats. */
enum { R8G8B8 = 7, G8 = 19 };

/* How many times the scans of a file may code the blocks of its picture. */
enum { MAX_PASSES = 100 };

/* The bytes of a message that say how long it is, and how many descriptors one may bring. */
enum { HEAD_BYTES = 16, MOST_DESCRIPTORS = 16 };

/* The room for a message's descriptors, aligned as that has to be. */
union control {
    struct cmsghdr aligned;
    char room[CMSG_SPACE(sizeof(int) * MOST_DESCRIPTORS)];
};

/* The file that was given, and its picture. */
static GByteArray *jpeg;
static zaxbriar_options options = {.max_passes = MAX_PASSES};
static zaxbriar_picture picture;

/* Ends the program by a call that the sandbox allows. */
G_NORETURN static void end(int status) {
    for (;;) syscall(SYS_exit, status);
}

/* Takes the descriptors of a message that has come. */
static void take(struct msghdr *message, GUnixFDList *given) {
    for (struct cmsghdr *part = CMSG_FIRSTHDR(message); part; part = CMSG_NXTHDR(message, part)) {
        int descriptors[MOST_DESCRIPTORS];
        size_t size = part->cmsg_len - CMSG_LEN(0);
        if (part->cmsg_type != SCM_RIGHTS || size > sizeof descriptors) continue;
        memcpy(descriptors, CMSG_DATA(part), size);
        for (size_t index = 0; index < size / sizeof(int); index++) {
            g_unix_fd_list_append(given, descriptors[index], NULL);
            close(descriptors[index]);
        }
    }
}

/* Receives exactly so many bytes, and the descriptors with them. */
static void receive(guint8 *bytes, size_t size, GUnixFDList *given) {
    while (size > 0) {
        union control control;
        struct iovec part = {bytes, size};
        struct msghdr message = {.msg_iov = &part,
                                 .msg_iovlen = 1,
                                 .msg_control = &control,
                                 .msg_controllen = sizeof control};
        ssize_t count = recvmsg(STDIN_FILENO, &message, MSG_CMSG_CLOEXEC);
        if (count < 0 && errno == EINTR) continue;
        if (count <= 0) end(0);
        take(&message, given);
        bytes += count;
        size -= (size_t)count;
    }
}

/* Sends bytes, with descriptors if there are any. */
static void transmit(const void *bytes, size_t size, const int *descriptors, int count) {
    union control control;
    struct iovec part = {(void *)bytes, size};
    struct msghdr message = {.msg_iov = &part, .msg_iovlen = 1};
    if (count > 0) {
        size_t data = sizeof(int) * (size_t)count;
        message.msg_control = &control;
        message.msg_controllen = CMSG_SPACE(data);
        control.aligned = (struct cmsghdr){
            .cmsg_len = CMSG_LEN(data), .cmsg_level = SOL_SOCKET, .cmsg_type = SCM_RIGHTS};
        memcpy(CMSG_DATA(&control.aligned), descriptors, data);
    }
    while (part.iov_len > 0) {
        ssize_t done = sendmsg(STDIN_FILENO, &message, MSG_NOSIGNAL);
        if (done < 0 && errno == EINTR) continue;
        if (done < 0) end(1);
        message.msg_control = NULL;
        message.msg_controllen = 0;
        part.iov_base = (char *)part.iov_base + done;
        part.iov_len -= (size_t)done;
    }
}

/* Says a line of the handshake, and waits for the end of the answer. */
static void greet(const char *line, size_t size) {
    GUnixFDList *none = g_unix_fd_list_new();
    guint8 byte = 0;
    transmit(line, size, NULL, 0);
    while (byte != '\n') receive(&byte, 1, none);
    g_object_unref(none);
}

/* Sends a message: an answer, which it frees. */
static void answer(GDBusMessage *message) {
    static guint32 serial;
    gsize size = 0;
    int count = 0;
    GUnixFDList *sent = g_dbus_message_get_unix_fd_list(message);
    const int *descriptors = sent ? g_unix_fd_list_peek_fds(sent, &count) : NULL;
    g_dbus_message_set_serial(message, ++serial);
    guchar *blob = g_dbus_message_to_blob(message, &size,
                                          G_DBUS_CAPABILITY_FLAGS_UNIX_FD_PASSING, NULL);
    transmit(blob, size, descriptors, count);
    g_free(blob);
    g_object_unref(message);
}

/* Answers a call with values, and with the descriptors that these name. */
static void reply(GDBusMessage *call, GVariant *values, GUnixFDList *sent) {
    GDBusMessage *message = g_dbus_message_new_method_reply(call);
    g_dbus_message_set_body(message, values);
    g_dbus_message_set_unix_fd_list(message, sent);
    g_object_unref(sent);
    answer(message);
}

/* Answers a call with glycin's error for a refusal. */
static void refuse(GDBusMessage *call, zaxbriar_result result) {
    const char *name = "org.gnome.glycin.Error.LoadingError";
    if (result == ZAXBRIAR_NO_MEMORY) name = "org.gnome.glycin.Error.OutOfMemory";
    if (result == ZAXBRIAR_UNSUPPORTED) name = "org.gnome.glycin.Error.UnsupportedImageFormat";
    answer(g_dbus_message_new_method_error_literal(call, name, picture.text));
}

/* Bytes that the other side can map, and that this side has until they are sent. */
struct shared {
    int descriptor;
    size_t size;
    void *bytes;
};

static gboolean share(struct shared *shared, size_t size) {
    shared->size = size;
    shared->descriptor = memfd_create("zaxbriar", MFD_CLOEXEC | MFD_ALLOW_SEALING);
    if (shared->descriptor < 0) return FALSE;
    shared->bytes = MAP_FAILED;
    if (ftruncate(shared->descriptor, (off_t)size) == 0)
        shared->bytes =
            mmap(NULL, size, PROT_READ | PROT_WRITE, MAP_SHARED, shared->descriptor, 0);
    if (shared->bytes != MAP_FAILED) return TRUE;
    close(shared->descriptor);
    return FALSE;
}

static void drop(struct shared *shared) {
    munmap(shared->bytes, shared->size);
    close(shared->descriptor);
}

/* Puts the bytes into what is sent, and gives their handle there. */
static gint32 send_shared(struct shared *shared, GUnixFDList *sent) {
    gint32 handle = g_unix_fd_list_append(sent, shared->descriptor, NULL);
    /* (glycin then forbids to write them, which it can't while they are mapped here) */
    drop(shared);
    return handle;
}

/* Adds metadata of a kind, if the file has any, to what is said of it. */
static void add_metadata(GVariantBuilder *told, const char *name, zaxbriar_kind kind,
                         GUnixFDList *sent) {
    size_t size = 0;
    struct shared data;
    zaxbriar_result result = zaxbriar_metadata(jpeg->data, jpeg->len, kind, NULL, 0, &size);
    if (result != ZAXBRIAR_NO_ROOM || !share(&data, size)) return;
    result = zaxbriar_metadata(jpeg->data, jpeg->len, kind, data.bytes, size, &size);
    if (result == ZAXBRIAR_OK)
        g_variant_builder_add(told, "{sv}", name, g_variant_new_handle(send_shared(&data, sent)));
    else
        drop(&data);
}

/* Reads all that comes over a socket, up to the most that an array holds. */
static GByteArray *read_all(int descriptor) {
    GByteArray *bytes = g_byte_array_new();
    guint8 buffer[65536];
    ssize_t count;
    g_unix_set_fd_nonblocking(descriptor, FALSE, NULL);
    while ((count = read(descriptor, buffer, sizeof buffer)) != 0) {
        if (count < 0 && errno == EINTR) continue;
        if (count < 0 || bytes->len > G_MAXUINT - sizeof buffer) break;
        g_byte_array_append(bytes, buffer, (guint)count);
    }
    return bytes;
}

static void init(GDBusMessage *call) {
    GUnixFDList *given = g_dbus_message_get_unix_fd_list(call);
    GVariant *body = g_dbus_message_get_body(call);
    gint32 handle = 0;
    if (body == NULL || !g_variant_is_of_type(body, G_VARIANT_TYPE("((hsa{sv}))"))) end(1);
    g_variant_get(body, "((h@s@a{sv}))", &handle, NULL, NULL);
    int descriptor = given ? g_unix_fd_list_get(given, handle, NULL) : -1;
    jpeg = read_all(descriptor);
    close(descriptor);

    zaxbriar_result result = zaxbriar_read_info(jpeg->data, jpeg->len, NULL, &picture);
    options.layout = picture.components == 1 ? ZAXBRIAR_GREY : ZAXBRIAR_RGB;
    if (result == ZAXBRIAR_OK)
        result = zaxbriar_read_info(jpeg->data, jpeg->len, &options, &picture);
    if (result != ZAXBRIAR_OK) {
        refuse(call, result);
        return;
    }
    GUnixFDList *sent = g_unix_fd_list_new();
    GVariantBuilder told;
    g_variant_builder_init(&told, G_VARIANT_TYPE_VARDICT);
    g_variant_builder_add(&told, "{sv}", "format_name", g_variant_new_string("JPEG"));
    /* (glycin turns the picture, by the orientation in the Exif data) */
    g_variant_builder_add(&told, "{sv}", "transformations_applied", g_variant_new_boolean(FALSE));
    add_metadata(&told, "exif", ZAXBRIAR_EXIF, sent);
    add_metadata(&told, "xmp", ZAXBRIAR_XMP, sent);
    reply(call, g_variant_new("(uua{sv})", picture.width, picture.height, &told), sent);
}

static void frame(GDBusMessage *call) {
    struct shared pixels;
    if (jpeg == NULL || !share(&pixels, picture.size)) {
        refuse(call, ZAXBRIAR_NO_MEMORY);
        return;
    }
    zaxbriar_result result = zaxbriar_decode_partial(jpeg->data, jpeg->len, &options,
                                                     pixels.bytes, pixels.size, &picture);
    if (result != ZAXBRIAR_OK && result != ZAXBRIAR_PARTIAL) {
        drop(&pixels);
        refuse(call, result);
        return;
    }
    GUnixFDList *sent = g_unix_fd_list_new();
    gint32 handle = send_shared(&pixels, sent);
    GVariantBuilder told;
    g_variant_builder_init(&told, G_VARIANT_TYPE_VARDICT);
    add_metadata(&told, "iccp", ZAXBRIAR_ICC, sent);
    guint32 format = options.layout == ZAXBRIAR_GREY ? G8 : R8G8B8;
    /* (the time before the next frame, of which there is none) */
    guint64 seconds = 0;
    guint32 nanoseconds = 0;
    reply(call,
          g_variant_new("(uuuuh(tu)a{sv})", picture.width, picture.height,
                        (guint32)picture.row_bytes, format, handle, seconds, nanoseconds, &told),
          sent);
}

/* Receives a call, and answers it. */
static void serve(void) {
    GUnixFDList *given = g_unix_fd_list_new();
    guint8 head[HEAD_BYTES];
    receive(head, HEAD_BYTES, given);
    gssize size = g_dbus_message_bytes_needed(head, HEAD_BYTES, NULL);
    if (size < HEAD_BYTES) end(1);
    guint8 *blob = g_malloc((gsize)size);
    memcpy(blob, head, HEAD_BYTES);
    receive(blob + HEAD_BYTES, (size_t)size - HEAD_BYTES, given);
    GDBusMessage *call = g_dbus_message_new_from_blob(
        blob, (gsize)size, G_DBUS_CAPABILITY_FLAGS_UNIX_FD_PASSING, NULL);
    if (call == NULL) end(1);
    g_dbus_message_set_unix_fd_list(call, given);
    if (g_strcmp0(g_dbus_message_get_member(call), "Init") == 0)
        init(call);
    else if (g_strcmp0(g_dbus_message_get_member(call), "Frame") == 0)
        frame(call);
    g_object_unref(call);
    g_object_unref(given);
    g_free(blob);
}

int main(void) {
    /* (a zero begins a connection, and the number is this program's name) */
    static const char AUTHENTICATE[] = "\0AUTH ANONYMOUS 7a61786272696172\r\n";
    static const char NEGOTIATE[] = "NEGOTIATE_UNIX_FD\r\n";
    static const char BEGIN[] = "BEGIN\r\n";
    g_unix_set_fd_nonblocking(STDIN_FILENO, FALSE, NULL);
    greet(AUTHENTICATE, sizeof AUTHENTICATE - 1);
    greet(NEGOTIATE, sizeof NEGOTIATE - 1);
    transmit(BEGIN, sizeof BEGIN - 1, NULL, 0);
    for (;;) serve();
}
