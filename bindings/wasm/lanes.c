/* What the compiled library asks of an x86-64 processor, for one that has other instructions. The name is as long as that of the
   instruction's intrinsic, in whose place tools/make_page puts it. */

typedef unsigned char Lanes __attribute__((vector_size(16)));

/* Of each byte the one of the table that its low four bits number, and 0 where its high bit is set (PSHUFB). */
Lanes cwr__x86_ssse3_pshuf_b_128(Lanes table, Lanes at) {
    Lanes found;
    for (int i = 0; i < 16; i++) found[i] = at[i] & 128 ? 0 : table[at[i] & 15];
    return found;
}
