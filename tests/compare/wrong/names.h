/* Other names for the second implementation's functions, so that an edited copy of it can stand beside the true one.
 * tests/compare_bites defines WRONG, the name of the edit, and includes this before the copy. */
#define JOINED(a, b) a##b
#define JOIN(a, b) JOINED(a, b)

#define second_is_ship JOIN(WRONG, _is_ship)
#define second_is_coast JOIN(WRONG, _is_coast)
#define second_is_channel JOIN(WRONG, _is_channel)
#define second_is_duration JOIN(WRONG, _is_duration)
#define second_judge JOIN(WRONG, _judge)
#define second_read JOIN(WRONG, _read)
#define second_write JOIN(WRONG, _write)
#define second_read_bytes JOIN(WRONG, _read_bytes)
#define second_write_bytes JOIN(WRONG, _write_bytes)
