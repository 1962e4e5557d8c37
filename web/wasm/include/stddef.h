/* SPDX-License-Identifier: Apache-2.0 */
/* The type of stddef.h that the module's files name: the kit's clang comes without the header. */
#ifndef NETCONF_WEB_STDDEF_H
#define NETCONF_WEB_STDDEF_H

typedef __SIZE_TYPE__ size_t;

#endif
