# Checksums of bytes, which stand one to an element: CRC-32, bit by bit, Adler-32, and FNV-1a, whose
# products wrap at 64 bits. What lies above the low eight bits of an element is masked away.


#pythran export crc32(int64[])
#pythran export crc32(int64[::])
def crc32(data):
    crc = 0xFFFFFFFF
    for i in range(len(data)):
        crc ^= data[i] & 0xFF
        for bit in range(8):
            # All ones where the lowest bit is set, else all zeros.
            mask = -(crc & 1)
            crc = (crc >> 1) ^ (0xEDB88320 & mask)
    return crc ^ 0xFFFFFFFF


#pythran export adler32(int64[])
#pythran export adler32(int64[::])
def adler32(data):
    low = 1
    high = 0
    for i in range(len(data)):
        low = (low + (data[i] & 0xFF)) % 65521
        high = (high + low) % 65521
    return (high << 16) | low


#pythran export fnv1a(int64[])
#pythran export fnv1a(int64[::])
def fnv1a(data):
    # 0xCBF29CE484222325 as a number of 64 bits with a sign.
    state = -3750763034362895579
    for i in range(len(data)):
        state = (state ^ (data[i] & 0xFF)) * 0x100000001B3
    return state
