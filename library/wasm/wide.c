/* What the compiler calls for numbers of 128 bits, which WebAssembly does not have. */
__extension__ typedef unsigned __int128 u128;
typedef __UINT64_TYPE__ u64;

static u128 whole(u64 low, u64 high) {
    union {
        u64 parts[2];
        u128 all;
    } it;
    it.parts[0] = low;
    it.parts[1] = high;
    return it.all;
}
static u64 part(u128 all, int which) {
    union {
        u128 all;
        u64 parts[2];
    } it;
    it.all = all;
    return it.parts[which];
}

u128 __multi3(u128 a, u128 b) {
    u64 x = part(a, 0), y = part(b, 0), x0 = x & 0xFFFFFFFFu, x1 = x >> 32, y0 = y & 0xFFFFFFFFu, y1 = y >> 32;
    u64 low = x0 * y0, middle = (low >> 32) + x1 * y0, other = (middle & 0xFFFFFFFFu) + x0 * y1;
    u64 high = x1 * y1 + (middle >> 32) + (other >> 32);
    return whole((low & 0xFFFFFFFFu) | other << 32, high + part(a, 1) * y + x * part(b, 1));
}

u128 __ashlti3(u128 a, int by) {
    u64 low = part(a, 0), high = part(a, 1);
    if (by & 64)
        return whole(0, low << (by & 63));
    return by ? whole(low << by, high << by | low >> (64 - by)) : a;
}

u128 __lshrti3(u128 a, int by) {
    u64 low = part(a, 0), high = part(a, 1);
    if (by & 64)
        return whole(high >> (by & 63), 0);
    return by ? whole(low >> by | high << (64 - by), high >> by) : a;
}
