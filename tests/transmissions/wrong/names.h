/* Other names for the second implementation's functions, so that an edited copy of it can stand beside the true one.
 * tests/transmissions_bite defines WRONG, the name of the edit, and includes this before the copy. */
#define JOINED(a, b) a##b
#define JOIN(a, b) JOINED(a, b)

#define second_write_character JOIN(WRONG, _write_character)
#define second_read_character JOIN(WRONG, _read_character)
#define second_write_transmission JOIN(WRONG, _write_transmission)
#define second_read_transmission JOIN(WRONG, _read_transmission)
