"""The limits of strm. They are those of the crates, with which tests/exports compares them."""

CLASSES = 8
DATA_BLOCK_BYTES = 4096
DATA_BLOCKS = 16_383
MESSAGE_BLOCKS = 16_383
QUEUES = 16
WISHES = 64
WORKERS = 16
COMMAND_LINES = 1_048_576
SCRIPT_BYTES = 16_777_216
