/* SPDX-License-Identifier: Apache-2.0 */
/* The types of stdint.h that the module's files name: the kit's clang comes without the header. */
#ifndef NETCONF_WEB_STDINT_H
#define NETCONF_WEB_STDINT_H

typedef __UINT32_TYPE__ uint32_t;
typedef __UINT64_TYPE__ uint64_t;
typedef __INT64_TYPE__ int64_t;

#endif
