/* The pools of the heap: the number of pieces, and the bytes of each, 24 of which are a pbuf's header. */
LWIP_MALLOC_MEMPOOL_START
LWIP_MALLOC_MEMPOOL(24, 88)
LWIP_MALLOC_MEMPOOL(16, 280)
LWIP_MALLOC_MEMPOOL(8, 1048)
LWIP_MALLOC_MEMPOOL_END
