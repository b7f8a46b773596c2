/* SPDX-License-Identifier: MIT OR Apache-2.0 */
/* The manifest of the tests: the normal world and two partitions. */
static const char manifest_text[] =
    "ram_base = 0x40000000\n"
    "ram_blocks = 1\n"
    "[[endpoint]]\n"
    "version = \"1.1\"\n"
    "properties = 6\n"
    "regions = [{ base = 0x40010000, pages = 16, rights = \"rw\" }]\n"
    "[[endpoint]]\n"
    "version = \"1.1\"\n"
    "uuid = \"00112233-4455-6677-8899-aabbccddeeff\"\n"
    "properties = 15\n"
    "regions = [{ base = 0x40020000, pages = 16, rights = \"rwx\" }]\n"
    "[[endpoint]]\n"
    "version = \"1.1\"\n"
    "uuid = \"10112233-4455-6677-8899-aabbccddeeff\"\n"
    "properties = 15\n"
    "regions = [{ base = 0x40030000, pages = 16, rights = \"rw\" }]\n";
