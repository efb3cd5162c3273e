/* With little memory, strm_open refuses the largest pool and opens a small one. The last line is as in each.c. */
#include "check.h"

int main(void)
{
	static const struct strm_class_spec large[] = { { STRM_MOST_DATA_BYTES, STRM_MOST_DATA_BLOCKS } };
	static const struct strm_class_spec small[] = { { 16, 4 } };
	static const struct strm_queue_spec queue[] = { { 10, 4, 1, STRM_NO_QUEUE } };
	struct strm_pool pool = STRM_POOL_INIT;
	struct strm_config config;

	config.id = 1;
	config.mblks = STRM_MOST_MBLKS;
	config.classes = large;
	config.class_count = 1;
	config.queues = queue;
	config.queue_count = 1;
	config.bufcalls = 0;
	config.first_id = 1;
	ANSWERS(strm_open(&pool, &config), STRM_NO_MEMORY);
	CHECK(!strm_is_open(&pool));
	config.mblks = 4;
	config.classes = small;
	ANSWERS(strm_open(&pool, &config), STRM_OK);
	ANSWERS(strm_close(&pool), STRM_OK);
	return summary();
}
