/*
 * Images: bytes at any address of a target that is open, by runs over words. Nothing is allocated.
 */
#ifndef IMAGE_H
#define IMAGE_H

#include "swd.h"

/*
 * How far an image came: `done` bytes certainly, from the first on. `end` is how the last run ended, `answer` the
 * answer of the first access that isn't done, where that is a bus error.
 */
struct image_end {
	size_t done;
	struct swd_outcome end, answer;
};

/*
 * Writes bytes. Of a word that is written in part, at either end, the other bytes are read before. To go on after a
 * failure, have the run continued (line_leave, swd_run_again) and load the rest: a word that was in flight is then
 * written again. Gives whether all bytes were written.
 */
bool image_load(uint32_t addr, const uint8_t *data, size_t size, uint32_t tries, struct image_end *end);

/*
 * Reads bytes. Gives whether all were read.
 */
bool image_dump(uint32_t addr, uint8_t *data, size_t size, uint32_t tries, struct image_end *end);

#endif
