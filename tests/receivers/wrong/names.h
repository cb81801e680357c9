/* Another name for the second implementation's finder, so that an edited copy of it can stand beside the true one.
 * tests/receivers_bite defines WRONG, the name of the edit, and includes this before the copy. */
#define JOINED(a, b) a##b
#define JOIN(a, b) JOINED(a, b)

#define second_find_sequence JOIN(WRONG, _find_sequence)
