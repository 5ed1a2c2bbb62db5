/*
 * Makes a native call of the jar without Java, for systems where no Java runs in tests: loads the library that is
 * named, verifies an encoded hash of libargon2's tests, and prints "right". An array of Java is a `struct array`.
 */
#include <jni.h>
#include <stdbool.h>
#include <stdint.h>
#include <stdio.h>
#include <string.h>

#ifdef _WIN32
#include <windows.h>
#define OPEN(name) ((void *)LoadLibraryA(name))
#define FIND(library, name) ((void *)GetProcAddress((HMODULE)(library), name))
#else
#include <dlfcn.h>
#define OPEN(name) dlopen(name, RTLD_NOW)
#define FIND(library, name) dlsym(library, name)
#endif

#define ENCODED "$argon2id$v=19$m=256,t=2,p=1$c29tZXNhbHQ$nf65EOgLrQMR/uIPnA4rEsF5h7TKyQwu9U1bMCHGi/4"
enum { OK = 0, MISMATCH = 64, LARGEST = 128 };
enum { VERIFY = 2 }; /* of Native.Call */

struct array {
    size_t of_item;
    jsize length;
    uint8_t bytes[LARGEST];
};

typedef jint make_call(JNIEnv *, jclass, jint, jintArray, jlongArray, jlong, jobject, jbyteArray, jbyteArray,
    jbyteArray, jbyteArray, jbyteArray, jbyteArray);

static jsize length_of(JNIEnv *env, jarray array)
{
    return env == NULL ? 0 : ((struct array *)array)->length;
}

static void get(struct array *array, jsize first, jsize count, void *to)
{
    memcpy(to, array->bytes + (size_t)first * array->of_item, (size_t)count * array->of_item);
}

static void get_bytes(JNIEnv *env, jbyteArray array, jsize first, jsize count, jbyte *to)
{
    if (env != NULL) get((struct array *)array, first, count, to);
}

static void set_bytes(JNIEnv *env, jbyteArray array, jsize first, jsize count, const jbyte *from)
{
    if (env != NULL && count > 0) memcpy(((struct array *)array)->bytes + first, from, (size_t)count);
}

static void get_ints(JNIEnv *env, jintArray array, jsize first, jsize count, jint *to)
{
    if (env != NULL) get((struct array *)array, first, count, to);
}

static void get_longs(JNIEnv *env, jlongArray array, jsize first, jsize count, jlong *to)
{
    if (env != NULL) get((struct array *)array, first, count, to);
}

static const struct JNINativeInterface_ calls = {
    .GetArrayLength = length_of,
    .GetByteArrayRegion = get_bytes,
    .SetByteArrayRegion = set_bytes,
    .GetIntArrayRegion = get_ints,
    .GetLongArrayRegion = get_longs,
};
static JNIEnv of_thread = &calls;

static void *array_of(struct array *array, size_t of_item, const void *from, size_t count)
{
    *array = (struct array){of_item, (jsize)count, {0}};
    memcpy(array->bytes, from, of_item * count);
    return array;
}

static bool is_right(make_call *make)
{
    const jint numbers[] = {2, 19, 256, 2, 1, 32, 8};
    const jlong limits[] = {256, 2, 1, 512};
    struct array of[6];
    const jclass class = (jclass)&of;
    const jintArray settings = array_of(&of[0], sizeof(jint), numbers, 7);
    const jlongArray most = array_of(&of[1], sizeof(jlong), limits, 4);
    const jbyteArray password = array_of(&of[2], 1, "password", 8), wrong = array_of(&of[3], 1, "Password", 8);
    const jbyteArray none = array_of(&of[4], 1, "", 0), text = array_of(&of[5], 1, ENCODED, sizeof ENCODED - 1);
    return make(&of_thread, class, VERIFY, settings, most, 0, NULL, password, none, none, none, text, none) == OK
        && make(&of_thread, class, VERIFY, settings, most, 0, NULL, wrong, none, none, none, text, none) == MISMATCH;
}

int main(int argc, char **argv)
{
    void *const library = argc == 2 ? OPEN(argv[1]) : NULL;
    void *const found = library != NULL ? FIND(library, "Java_proved_argon2_Native_make") : NULL;
    make_call *make = NULL;
    memcpy(&make, &found, sizeof make);
    puts(make != NULL && is_right(make) ? "right" : "wrong");
    return 0;
}
