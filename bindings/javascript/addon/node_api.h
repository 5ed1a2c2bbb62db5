/* The part of Node-API that the addon calls, as Node's node_api.h declares it. Node keeps it stable, so the addon is
 * built without Node. Enumerations are plain numbers here. */
#ifndef ADDON_NODE_API_H
#define ADDON_NODE_API_H

#include <stdbool.h>
#include <stddef.h>
#include <stdint.h>

typedef struct napi_env__ *napi_env;
typedef struct napi_value__ *napi_value;
typedef struct napi_callback_info__ *napi_callback_info;
typedef struct napi_threadsafe_function__ *napi_threadsafe_function;
typedef napi_value (*napi_callback)(napi_env env, napi_callback_info info);
typedef void (*napi_finalize)(napi_env env, void *data, void *hint);
typedef void (*napi_threadsafe_function_call_js)(napi_env env, napi_value js_callback, void *context, void *data);

#define AUTO_LENGTH SIZE_MAX
enum { RELEASE = 0, ABORT = 1, NONBLOCKING = 0 };

unsigned napi_get_cb_info(
    napi_env env, napi_callback_info info, size_t *count, napi_value *values, napi_value *receiver, void **data);
unsigned napi_get_typedarray_info(
    napi_env env, napi_value array, unsigned *type, size_t *length, void **data, napi_value *buffer, size_t *offset);
unsigned napi_get_undefined(napi_env env, napi_value *value);
unsigned napi_create_double(napi_env env, double number, napi_value *value);
unsigned napi_create_string_utf8(napi_env env, const char *text, size_t length, napi_value *value);
unsigned napi_create_function(
    napi_env env, const char *name, size_t length, napi_callback callback, void *data, napi_value *value);
unsigned napi_set_named_property(napi_env env, napi_value object, const char *name, napi_value value);
unsigned napi_call_function(
    napi_env env, napi_value receiver, napi_value function, size_t count, const napi_value *values, napi_value *result);
unsigned napi_add_env_cleanup_hook(napi_env env, void (*hook)(void *arg), void *arg);
unsigned napi_remove_env_cleanup_hook(napi_env env, void (*hook)(void *arg), void *arg);
unsigned napi_create_threadsafe_function(napi_env env, napi_value function, napi_value resource, napi_value name,
    size_t queue, size_t threads, void *finalize_data, napi_finalize finalize, void *context,
    napi_threadsafe_function_call_js call, napi_threadsafe_function *made);
unsigned napi_call_threadsafe_function(napi_threadsafe_function function, void *data, unsigned mode);
unsigned napi_release_threadsafe_function(napi_threadsafe_function function, unsigned mode);

#endif
